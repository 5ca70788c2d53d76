-- Whole commissionings, undisturbed: of one controller, of several at once, and of several one after the other.

== one controller gives one gear an address
site 1 0-3
draws 123456
run 1000 > 0: commit reserve 0 123456 > 0: commit enrol 0 123456 > 0: done all-found > ran 121
show > gear 0 on disabled 123456 FFFFFE 0 > table 0: 0=123456

== commissioning opens and asks for the largest number first
-- TERMINATE, INITIALISE and RANDOMISE twice, then COMPARE under FFFFFE. A transaction begins at 3 and goes on at 1.
site 1 0-3
draws 123456
go 0 > 0: put 3 A100
pump > 0: sent A100 silence
go 0 > 0: put 1 A5FF
pump > 0: sent A5FF silence
go 0 > 0: put 1 A5FF
pump > 0: sent A5FF silence
go 0 > 0: put 1 A700
pump > 0: sent A700 silence
go 0 > 0: put 1 A700
pump > 0: sent A700 silence
go 0 > 0: put 3 B1FF
pump > 0: sent B1FF silence
go 0 > 0: put 1 B3FF
pump > 0: sent B3FF silence
go 0 > 0: put 1 B5FE
pump > 0: sent B5FE silence
go 0 > 0: put 1 A900
pump > 0: sent A900 byte FF

== an empty bus is all found
site 1 0-3
draws
off 0 > ok
run 1000 > 0: done all-found > ran 10

== both ends of the range are found
site 2 0-1
draws 000000 FFFFFE
run 1000 > 0: commit reserve 0 000000 > 0: commit enrol 0 000000 > 0: commit reserve 1 FFFFFE
> 0: commit enrol 1 FFFFFE > 0: done all-found > ran 228
show > gear 0 on disabled 000000 FFFFFE 0 > gear 1 on disabled FFFFFE FFFFFE 1 > table 0: 0=000000 1=FFFFFE

== two controllers name all gear alike
site 3 0-2 3-5
draws 000001 000002 000003 300000 100000 200000
run 1000 > 0: commit reserve 0 100000 > 1: commit reserve 3 100000 > 0: commit enrol 0 100000
> 1: commit enrol 0 100000 > 1: commit release 3 100000 > 0: commit reserve 1 200000 > 1: commit reserve 3 200000
> 0: commit enrol 1 200000 > 1: commit enrol 1 200000 > 1: commit release 3 200000 > 0: commit reserve 2 300000
> 1: commit reserve 3 300000 > 0: commit enrol 2 300000 > 1: commit enrol 2 300000 > 1: commit release 3 300000
> 0: done all-found > 1: done all-found > ran 680
show > gear 0 on disabled 300000 FFFFFE 2 > gear 1 on disabled 100000 FFFFFE 0 > gear 2 on disabled 200000 FFFFFE 1
> table 0: 0=100000 1=200000 2=300000 > table 1: 0=100000 1=200000 2=300000

== an opening between visits leaves a reservation
-- Controller 1 opens after controller 0 has reserved address 0 for 123456: the gear draws 0ABCDE, and that reservation
-- stays, since no controller finds the gear that drew 123456. The one for 0ABCDE is released.
site 1 0-3 4-7
draws 123456 0ABCDE
down 1 > ok
run 110 > 0: commit reserve 0 123456 > ran 109
up 1 > ok
go 1 > 1: put 3 A100
run 1000 > 1: commit reserve 4 0ABCDE > 0: commit reserve 1 0ABCDE > 1: commit enrol 4 0ABCDE
> 0: commit enrol 4 0ABCDE > 0: commit release 1 0ABCDE > 1: done all-found > 0: done all-found > ran 239

== a block that is too small leaves gear
site 2 7-7
draws 100000 200000
run 1000 > 0: commit reserve 7 100000 > 0: commit enrol 7 100000 > 0: done block-full > ran 221
show > gear 0 on disabled 100000 200000 7 > gear 1 on disabled 200000 200000 - > table 0: 7=100000

== a run ends where no number is left
site 1 0-3
draws
run 1000 > refused 6 DrawsSpent > ran 4
pump > refused 6 DrawsSpent
off 0 > ok
pump > 0: sent A700 silence
run 1000 > 0: done all-found > ran 5

== compare is not answered by withdrawn gear
-- The gear is withdrawn and enrolled. A gear that answered all the same would be found again and again.
site 1 0-3
draws 123456
run 118 > 0: commit reserve 0 123456 > 0: commit enrol 0 123456 > ran 116
go 0 > 0: put 3 B1FF
pump > 0: sent B1FF silence
run 4 > ran 4
show > gear 0 on disabled 123456 FFFFFE 0 > table 0: 0=123456

== the first to close ends the initialisation for all
-- Controller 0 has one address and closes with TERMINATE, which disables all gear. Controller 1 then hears no gear and
-- ends with all-found, though two gear have no address. Once more alone, it finds them; its address 1 stays reserved
-- for 200002, which no gear has any more.
site 3 0-0 1-8
draws 100001 200001 300001 100002 200002 300002 100003 200003 300003
run 1000 > 0: commit reserve 0 100002 > 1: commit reserve 1 100002 > 0: commit enrol 0 100002
> 1: commit enrol 0 100002 > 1: commit release 1 100002 > 1: commit reserve 1 200002 > 0: done block-full
> 1: done all-found > ran 448
show > gear 0 on disabled 100002 200002 0 > gear 1 on disabled 200002 200002 - > gear 2 on disabled 300002 200002 -
> table 0: 0=100002 > table 1: 0=100002
down 1 > ok
up 1 > ok
run 1000 > 1: commit reserve 2 100003 > 1: commit enrol 2 100003 > 1: commit reserve 3 200003
> 1: commit enrol 3 200003 > 1: done all-found > ran 239
show > gear 0 on disabled 100002 200002 0 > gear 1 on disabled 100003 FFFFFE 2 > gear 2 on disabled 200003 FFFFFE 3
> table 0: 0=100002 > table 1: 0=100002 2=100003 3=200003

== arc power goes between transactions
-- The bus has no owner before the first frame, so arc power at 2 goes before TERMINATE at 3; then the owner's frames go
-- first.
site 1 0-3
draws 123456
go 0 > 0: put 3 A100
arc 0 FE80 > 0: put 2 FE80
arc 0 0000 > 0: put 2 0000
pump > 0: sent FE80 silence
pump > 0: sent 0000 silence
pump > 0: sent A100 silence
go 0 > 0: put 1 A5FF
arc 0 FFFE > refused 4 NotArc
pump > 0: sent A5FF silence
arc 0 fe81 > 0: put 2 FE81
go 0 > 0: put 1 A5FF
pump > 0: sent A5FF silence

== the opening of another controller begins a commissioning anew
-- Controller 0 has found 000001 when controller 1 opens: both gear draw again.
site 2 0-3 4-7
draws 000001 000002 000003 000004
down 1 > ok
run 109 > ran 109
up 1 > ok
run 1000 > 0: commit reserve 0 000001 > 1: commit reserve 4 000003 > 0: commit reserve 1 000003
> 1: commit enrol 4 000003 > 0: commit enrol 4 000003 > 0: commit release 1 000003 > 1: commit reserve 5 000004
> 0: commit reserve 1 000004 > 1: commit enrol 5 000004 > 0: commit enrol 5 000004 > 0: commit release 1 000004
> 1: done all-found > 0: done all-found > ran 459
show > gear 0 on disabled 000003 FFFFFE 4 > gear 1 on disabled 000004 FFFFFE 5 > table 0: 4=000003 5=000004
> table 1: 4=000003 5=000004

== controllers that run at once reserve for the same gear
-- Each of four controllers reserves an address for each gear that all find, and three release theirs again. The first,
-- which gives both its addresses, closes; the others end with it, so six gear have none.
site 8 0-1 2-3 4-5 6-7
draws 2265B1 91B758 D8F16A CD613E C386BB 1027C4 414C34 1E2FEB 7ED4D5 C2CE6F 7311D8 78E510 A6CECC 612E76 C9E9C6 35BF99 18072E 7CE42C 0741C7 E4B06C D5F4B3 63CA82 6EC9D2 9B810E C324C9 C46471 008A05 B2221A 7204E5 442E3D B8B6D8 CD447E
run 10000 > 0: commit reserve 0 008A05 > 1: commit reserve 2 008A05 > 2: commit reserve 4 008A05
> 3: commit reserve 6 008A05 > 0: commit enrol 0 008A05 > 1: commit enrol 0 008A05 > 1: commit release 2 008A05
> 2: commit enrol 0 008A05 > 2: commit release 4 008A05 > 3: commit enrol 0 008A05 > 3: commit release 6 008A05
> 0: commit reserve 1 442E3D > 1: commit reserve 2 442E3D > 2: commit reserve 4 442E3D > 3: commit reserve 6 442E3D
> 0: commit enrol 1 442E3D > 1: commit enrol 1 442E3D > 1: commit release 2 442E3D > 2: commit enrol 1 442E3D
> 2: commit release 4 442E3D > 3: commit enrol 1 442E3D > 3: commit release 6 442E3D > 1: commit reserve 2 7204E5
> 2: commit reserve 4 7204E5 > 3: commit reserve 6 7204E5 > 0: done block-full > 1: done all-found > 2: done all-found
> 3: done all-found > ran 1340
show > gear 0 on disabled C324C9 7204E5 - > gear 1 on disabled C46471 7204E5 - > gear 2 on disabled 008A05 7204E5 0
> gear 3 on disabled B2221A 7204E5 - > gear 4 on disabled 7204E5 7204E5 - > gear 5 on disabled 442E3D 7204E5 1
> gear 6 on disabled B8B6D8 7204E5 - > gear 7 on disabled CD447E 7204E5 - > table 0: 0=008A05 1=442E3D
> table 1: 0=008A05 1=442E3D > table 2: 0=008A05 1=442E3D > table 3: 0=008A05 1=442E3D

== controllers one after the other address all gear
-- The same site, its controllers brought up one at a time: eight gear with eight addresses.
site 8 0-1 2-3 4-5 6-7
draws 2265B1 91B758 D8F16A CD613E C386BB 1027C4 414C34 1E2FEB 7ED4D5 C2CE6F 7311D8 78E510 A6CECC 612E76 C9E9C6 35BF99 18072E 7CE42C 0741C7 E4B06C
down 1 > ok
down 2 > ok
down 3 > ok
run 10000 > 0: commit reserve 0 1027C4 > 0: commit enrol 0 1027C4 > 0: commit reserve 1 1E2FEB
> 0: commit enrol 1 1E2FEB > 0: done block-full > ran 332
up 1 > ok
run 10000 > 1: commit reserve 2 612E76 > 1: commit enrol 2 612E76 > 1: commit reserve 3 7311D8
> 1: commit enrol 3 7311D8 > 1: done block-full > ran 332
up 2 > ok
run 10000 > 2: commit reserve 4 18072E > 2: commit enrol 4 18072E > 2: commit reserve 5 35BF99
> 2: commit enrol 5 35BF99 > 2: done block-full > ran 332
up 3 > ok
run 10000 > 3: commit reserve 6 0741C7 > 3: commit enrol 6 0741C7 > 3: commit reserve 7 E4B06C
> 3: commit enrol 7 E4B06C > 3: done all-found > ran 232
show > gear 0 on disabled 0741C7 FFFFFE 6 > gear 1 on disabled 35BF99 7CE42C 5 > gear 2 on disabled 7311D8 78E510 3
> gear 3 on disabled 18072E 7CE42C 4 > gear 4 on disabled E4B06C FFFFFE 7 > gear 5 on disabled 1027C4 2265B1 0
> gear 6 on disabled 612E76 78E510 2 > gear 7 on disabled 1E2FEB 2265B1 1 > table 0: 0=1027C4 1=1E2FEB
> table 1: 2=612E76 3=7311D8 > table 2: 4=18072E 5=35BF99 > table 3: 6=0741C7 7=E4B06C

== a full queue takes no more requests
site 1 0-3
draws
*64 arc 0 FE80 > 0: put 2 FE80
arc 0 FE80 > refused 7 QueueFull
go 0 > refused 7 QueueFull
