-- Controllers that go down and come up, and records that are kept, or not, before they do.

== a commit before a restart is gone on from
-- The record is in the store, and the controller is not told before it goes down.
site 1 0-3
draws 123456 654321
run 110 > 0: commit reserve 0 123456 > ran 109
store 0 > ok
down 0 > ok
up 0 > ok
run 1000 > 0: commit enrol 0 123456 > 0: done all-found > ran 17
show > gear 0 on disabled 123456 123456 0 > table 0: 0=123456

== a controller that comes up is at its start
site 1 0-3
draws 123456
store 0 > refused 3 NotDue
go 4 > refused 1 UnknownController
down 0 > ok
go 0 > refused 2 ControllerDown
up 0 > ok
go 0 > 0: put 3 A100

== a failed commit halts and a restart begins anew
-- The gear, which has no address yet, draws 654321 at the second opening.
site 1 0-3
draws 123456 654321
run 110 > 0: commit reserve 0 123456 > ran 109
fail 0 > 0: halt store
down 0 > ok
up 0 > ok
run 1000 > 0: commit reserve 0 654321 > 0: commit enrol 0 654321 > 0: done all-found > ran 121

== a record that was kept is gone on from after a halt
site 1 0-3
draws 123456
run 110 > 0: commit reserve 0 123456 > ran 109
store 0 > ok
fail 0 > 0: halt store
down 0 > ok
up 0 > ok
run 1000 > 0: commit enrol 0 123456 > 0: done all-found > ran 17

== a table has an entry once its controller is told
-- The enrolment is in the store before the controller goes down, and in the table when it comes up.
site 1 0-3
draws 123456
run 118 > 0: commit reserve 0 123456 > 0: commit enrol 0 123456 > ran 116
show > gear 0 on withdrawn 123456 123456 0 > table 0:
store 0 > ok
show > gear 0 on withdrawn 123456 123456 0 > table 0:
down 0 > ok
show > gear 0 on withdrawn 123456 123456 0 > table 0:
up 0 > ok
show > gear 0 on withdrawn 123456 123456 0 > table 0: 0=123456
run 1000 > 0: done all-found > ran 10
show > gear 0 on disabled 123456 123456 0 > table 0: 0=123456

== a controller that goes down gives up the bus
site 1 0-3 4-7
draws 123456 654321
go 0 > 0: put 3 A100
pump > 0: sent A100 silence
go 1 > 1: put 3 A100
pump > idle
go 0 > 0: put 1 A5FF
down 0 > ok
pump > 1: sent A100 silence
lapse > lapse 1
up 0 > ok
lapse > lapse -

== a controller comes up with as many records as it has
site 3 0-3
draws 100000 200000 300000 110000 210000 310000 120000 220000 320000 130000 230000 330000
down 0 > ok
up 0 > ok
run 110 > 0: commit reserve 0 100000 > ran 109
down 0 > ok
up 0 > ok
run 130 > 0: commit reserve 0 110000 > 0: commit enrol 0 110000 > ran 128
down 0 > ok
up 0 > ok
run 1000 > 0: commit reserve 1 120000 > 0: commit enrol 1 120000 > 0: commit reserve 2 220000
> 0: commit enrol 2 220000 > 0: done all-found > ran 232
down 0 > ok
up 0 > ok
run 1000 > 0: done all-found > ran 10
show > gear 0 on disabled 110000 3FFFFF 0 > gear 1 on disabled 120000 FFFFFE 1 > gear 2 on disabled 220000 FFFFFE 2
> table 0: 0=110000 1=120000 2=220000

== a frame that waits when its controller goes down is never sent
site 1 0-3 4-7
draws 123456 654321
go 0 > 0: put 3 A100
go 1 > 1: put 3 A100
down 0 > ok
pump > 1: sent A100 silence
arc 1 FE80 > 1: put 2 FE80
down 1 > ok
pump > idle
up 0 > ok
go 0 > 0: put 3 A100
pump > 0: sent A100 silence
down 0 > ok
up 1 > ok
go 1 > 1: put 3 A100
go 1 > refused 3 NotDue
pump > 1: sent A100 silence

== a controller that goes down before its release keeps the reservation
-- No memory is refused to a controller that comes up, however many records it has: none, one pair, and three.
-- Controller 1 gave the gear address 4, and controller 0 had reserved 1 for it. The enrolment is kept, and the release
-- is ordered and not kept.
site 1 0-3 4-7
draws 123456 0ABCDE
down 1 > ok
run 110 > 0: commit reserve 0 123456 > ran 109
up 1 > ok
go 1 > 1: put 3 A100
run 230 > 1: commit reserve 4 0ABCDE > 0: commit reserve 1 0ABCDE > 1: commit enrol 4 0ABCDE
> 0: commit enrol 4 0ABCDE > ran 230
go 0 > 0: commit release 1 0ABCDE
down 0 > ok
up 0 > ok
run 1000 > 1: done all-found > 0: done all-found > ran 21
show > gear 0 on disabled 0ABCDE 123456 4 > table 0: 4=0ABCDE > table 1: 4=0ABCDE

:: to the release
site 2 0-3 4-7
draws 000001 000002 000003 000004 000005
down 1 > ok
run 109 > ran 109
up 1 > ok
go 1 > 1: put 3 A100
run 230 > 0: commit reserve 0 000001 > 1: commit reserve 4 000003 > 0: commit reserve 1 000003
> 1: commit enrol 4 000003 > 0: commit enrol 4 000003 > ran 230
go 0 > 0: commit release 1 000003
down 1 > ok

== a release that is kept before a restart frees the address
+ to the release
store 0 > ok
down 0 > ok
up 0 > ok
run 1000 > 0: commit reserve 1 000005 > 0: commit enrol 1 000005 > 0: done all-found > ran 128

== a release that is not kept leaves the reservation
+ to the release
fail 0 > 0: halt store
down 0 > ok
up 0 > ok
run 1000 > 0: commit reserve 2 000005 > 0: commit enrol 2 000005 > 0: done all-found > ran 128
