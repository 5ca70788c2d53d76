-- Controllers that begin by a survey.

== a survey gives addresses as a start does, and a second one commits nothing
-- The second survey asks three gear for their numbers, and hears none without address.
site 3 0-7
draws 123456 0ABCDE 654321
survey 0 > 0: put 3 01C2
run 2000 > 0: commit reserve 0 0ABCDE > 0: commit enrol 0 0ABCDE > 0: commit reserve 1 123456
> 0: commit enrol 1 123456 > 0: commit reserve 2 654321 > 0: commit enrol 2 654321 > 0: done all-found > ran 476
show > gear 0 on disabled 123456 FFFFFE 1 > gear 1 on disabled 0ABCDE FFFFFE 0 > gear 2 on disabled 654321 FFFFFE 2
> table 0: 0=0ABCDE 1=123456 2=654321
down 0 > ok
up 0 > ok
survey 0 > 0: put 3 01C2
run 2000 > 0: done all-found > ran 209
survey 0 > refused 3 NotDue

== a survey enrols gear that another controller gave addresses to
-- Controller 1 comes up when all gear have addresses. By a start its table would stay empty.
site 2 0-3 8-15
draws 123456 654321
down 1 > ok
survey 0 > 0: put 3 01C2
run 2000 > 0: commit reserve 0 123456 > 0: commit enrol 0 123456 > 0: commit reserve 1 654321
> 0: commit enrol 1 654321 > 0: done all-found > ran 399
up 1 > ok
survey 1 > 1: put 3 01C2
run 2000 > 1: commit enrol 0 123456 > 1: commit enrol 1 654321 > 1: done all-found > ran 209
show > gear 0 on disabled 123456 FFFFFE 0 > gear 1 on disabled 654321 FFFFFE 1 > table 0: 0=123456 1=654321
> table 1: 0=123456 1=654321

== surveys at once leave no gear
-- Controller 0 ends with its block full. Controller 1 calls the roll then, hears the two that are left, and gives them
-- its addresses. A further survey of the first one enrols those of the second.
site 4 0-1 2-3
draws 100001 200001 300001 400001
survey 0 > 0: put 3 01C2
survey 1 > 1: put 3 01C2
run 10000 > 0: commit reserve 0 100001 > 1: commit reserve 2 100001 > 0: commit enrol 0 100001
> 1: commit enrol 0 100001 > 1: commit release 2 100001 > 0: commit reserve 1 200001 > 1: commit reserve 2 200001
> 0: commit enrol 1 200001 > 1: commit enrol 1 200001 > 1: commit release 2 200001 > 1: commit reserve 2 300001
> 0: done block-full > 1: commit enrol 2 300001 > 1: commit reserve 3 400001 > 1: commit enrol 3 400001
> 1: done all-found > ran 1062
show > gear 0 on disabled 100001 300001 0 > gear 1 on disabled 200001 300001 1 > gear 2 on disabled 300001 FFFFFE 2
> gear 3 on disabled 400001 FFFFFE 3 > table 0: 0=100001 1=200001 > table 1: 0=100001 1=200001 2=300001 3=400001
down 0 > ok
up 0 > ok
survey 0 > 0: put 3 01C2
run 10000 > 0: commit enrol 2 300001 > 0: commit enrol 3 400001 > 0: done all-found > ran 209
show > gear 0 on disabled 100001 300001 0 > gear 1 on disabled 200001 300001 1 > gear 2 on disabled 300001 FFFFFE 2
> gear 3 on disabled 400001 FFFFFE 3 > table 0: 0=100001 1=200001 2=300001 3=400001
> table 1: 0=100001 1=200001 2=300001 3=400001

== an address under which somebody was heard is given to nobody
-- Some gear is heard under 0, so the gear is given 1.
site 1 0-3
draws 123456
survey 0 > 0: put 3 01C2
pump noise > 0: sent 01C2 damaged
run 2000 > 0: commit reserve 1 123456 > 0: commit enrol 1 123456 > 0: done all-found > ran 319

== a survey of a block that is too small leaves gear
-- A second address would be needed: no survey gives one that the block does not have.
site 2 7-7
draws 100000 200000
survey 0 > 0: put 3 01C2
run 1000 > 0: commit reserve 7 100000 > 0: commit enrol 7 100000 > 0: done block-full > ran 359
show > gear 0 on disabled 100000 200000 7 > gear 1 on disabled 200000 200000 - > table 0: 7=100000
down 0 > ok
up 0 > ok
survey 0 > 0: put 3 01C2
run 1000 > 0: done block-full > ran 273
show > gear 0 on disabled 100000 200000 7 > gear 1 on disabled 200000 200000 - > table 0: 7=100000

== a new gear beside a full block is told by block-full
-- The second gear comes on when the block has no address left. It has no number, and draws none: the roll call hears
-- it, and the hunt under FFFFFE does not.
site 2 0-0
draws 100000
off 1 > ok
survey 0 > 0: put 3 01C2
run 1000 > 0: commit reserve 0 100000 > 0: commit enrol 0 100000 > 0: done all-found > ran 322
on 1 > ok
down 0 > ok
up 0 > ok
survey 0 > 0: put 3 01C2
run 1000 > 0: done block-full > ran 205
show > gear 0 on disabled 100000 FFFFFE 0 > gear 1 on disabled FFFFFF FFFFFE - > table 0: 0=100000

== gear that come on late draw after the next roll call
-- It is off while the other one draws, and comes on as that is visited. The next roll call hears it: it draws when no
-- gear is to be searched any more, and is given an address.
site 2 0-3
draws 123456 654321
off 1 > ok
survey 0 > 0: put 3 01C2
run 291 > 0: commit reserve 0 123456 > ran 290
on 1 > ok
run 1000 > 0: commit enrol 0 123456 > 0: commit reserve 1 654321 > 0: commit enrol 1 654321 > 0: done all-found
> ran 144
show > gear 0 on disabled 123456 FFFFFE 0 > gear 1 on disabled 654321 FFFFFE 1 > table 0: 0=123456 1=654321

== a disabled gear is heard again by the next roll call
-- Its initialisation runs out before PROGRAM SHORT ADDRESS, so it stores nothing. The next roll call hears it.
site 1 0-3
draws 123456
survey 0 > 0: put 3 01C2
run 290 > 0: commit reserve 0 123456 > ran 289
expire 0 > ok
go 0 > 0: put 1 B701
pump > 0: sent B701 silence
run 1000 > 0: commit enrol 0 123456 > 0: done all-found > ran 118
show > gear 0 on disabled 123456 FFFFFE 0 > table 0: 0=123456

== a quiet bus between the two INITIALISE is one roll call alone
-- The gear is not initialised, and silent in this roll call. The second one in a row hears it.
site 1 0-3
draws 123456
survey 0 > 0: put 3 01C2
run 194 > ran 194
quiet > ok
go 0 > 0: put 1 A5FF
pump > 0: sent A5FF silence
run 1000 > 0: commit reserve 0 123456 > 0: commit enrol 0 123456 > 0: done all-found > ran 135
show > gear 0 on disabled 123456 FFFFFE 0 > table 0: 0=123456

== a frame of another device between the two INITIALISE is one roll call alone, too
site 1 0-3
draws 123456
survey 0 > 0: put 3 01C2
run 194 > ran 194
foreign 0105 > ok
go 0 > 0: put 1 A5FF
pump > 0: sent A5FF silence
run 1000 > 0: commit reserve 0 123456 > 0: commit enrol 0 123456 > 0: done all-found > ran 135
show > gear 0 on disabled 123456 FFFFFE 0 > table 0: 0=123456

== one answer of four that is heard leaves nobody
-- COMPARE is sent twice in each of two roll calls.
site 2 0-3
draws 123456 654321
survey 0 > 0: put 3 01C2
run 198 > ran 198
go 0 > 0: put 1 A900
pump lost > 0: sent A900 silence
go 0 > 0: put 1 A900
pump lost > 0: sent A900 silence
run 6 > ran 6
go 0 > 0: put 1 A900
pump lost > 0: sent A900 silence
go 0 > 0: put 1 A900
pump > 0: sent A900 damaged
run 1000 > 0: commit reserve 0 123456 > 0: commit enrol 0 123456 > 0: commit reserve 1 654321
> 0: commit enrol 1 654321 > 0: done all-found > ran 200

== four lost answers leave gear, and the next survey finds them
-- So all-found says only that no gear was heard four times. The next survey finds them.
site 2 0-3
draws 123456 654321
survey 0 > 0: put 3 01C2
run 198 > ran 198
go 0 > 0: put 1 A900
pump lost > 0: sent A900 silence
go 0 > 0: put 1 A900
pump lost > 0: sent A900 silence
run 6 > ran 6
go 0 > 0: put 1 A900
pump lost > 0: sent A900 silence
go 0 > 0: put 1 A900
pump lost > 0: sent A900 silence
run 1000 > 0: done all-found > ran 1
show > gear 0 on disabled FFFFFF FFFFFF - > gear 1 on disabled FFFFFF FFFFFF - > table 0:
down 0 > ok
up 0 > ok
survey 0 > 0: put 3 01C2
run 1000 > 0: commit reserve 0 123456 > 0: commit enrol 0 123456 > 0: commit reserve 1 654321
> 0: commit enrol 1 654321 > 0: done all-found > ran 399

== gear whose visit heard nothing are found anew
-- The visit to the second gear hears nothing. The search begins anew, at the number of the first one, and goes up from
-- there: it finds the gear.
site 2 0-3
draws 123456 654321
survey 0 > 0: put 3 01C2
run 365 > 0: commit reserve 0 123456 > 0: commit enrol 0 123456 > ran 363
go 0 > 0: put 1 BB00
pump lost > 0: sent BB00 silence
run 1000 > 0: commit reserve 1 654321 > 0: commit enrol 1 654321 > 0: done all-found > ran 113

== gear that are passed over are searched again after the next roll call
-- Its first visits hear nothing, so it is passed over. Once the other one is served its number is found anew, and this
-- time its visit is heard.
site 2 0-3
draws 100000 200000
survey 0 > 0: put 3 01C2
run 284 > ran 284
go 0 > 0: put 1 BB00
pump lost > 0: sent BB00 silence
run 72 > ran 72
go 0 > 0: put 1 BB00
pump lost > 0: sent BB00 silence
run 1000 > 0: commit reserve 0 200000 > 0: commit enrol 0 200000 > 0: commit reserve 1 100000
> 0: commit enrol 1 100000 > 0: done all-found > ran 207
show > gear 0 on disabled 100000 FFFFFE 1 > gear 1 on disabled 200000 FFFFFE 0 > table 0: 0=200000 1=100000

== passing over clears the failure of the number
-- Its visit fails twice, and it is passed over. Its third failure is a first one again: the search begins anew under
-- FFFFFE (B1FF), and does not pass the gear over at once (B112).
site 1 0-3
draws 123456
survey 0 > 0: put 3 01C2
run 284 > ran 284
go 0 > 0: put 1 BB00
pump lost > 0: sent BB00 silence
run 72 > ran 72
go 0 > 0: put 1 BB00
pump lost > 0: sent BB00 silence
run 96 > ran 96
go 0 > 0: put 1 BB00
pump lost > 0: sent BB00 silence
go 0 > 0: put 3 B1FF
run 1000 > 0: commit reserve 0 123456 > 0: commit enrol 0 123456 > 0: done all-found > ran 110
show > gear 0 on disabled 123456 FFFFFE 0 > table 0: 0=123456

== a block is full only once short addresses were asked again
-- The reservation of the first gear is unfinished, and its visits hear nothing. The second one finds no address open,
-- so all short addresses are asked again, and then the first one is found.
site 2 0-0
draws 123456 654321
survey 0 > 0: put 3 01C2
run 289 > 0: commit reserve 0 123456 > ran 288
go 0 > 0: put 1 BB00
pump lost > 0: sent BB00 silence
run 72 > ran 72
go 0 > 0: put 1 BB00
pump lost > 0: sent BB00 silence
run 2000 > 0: commit enrol 0 123456 > 0: done block-full > ran 424
show > gear 0 on disabled 123456 654321 0 > gear 1 on disabled 654321 654321 - > table 0: 0=123456

== a gear without power is not heard until it is on
-- So an address that a gear without power has stands in no table of a controller that surveyed meanwhile.
site 2 0-3 4-7
draws 123456 654321
down 1 > ok
survey 0 > 0: put 3 01C2
run 1000 > 0: commit reserve 0 123456 > 0: commit enrol 0 123456 > 0: commit reserve 1 654321
> 0: commit enrol 1 654321 > 0: done all-found > ran 399
up 1 > ok
off 0 > ok
survey 1 > 1: put 3 01C2
run 1000 > 1: commit enrol 1 654321 > 1: done all-found > ran 209
show > gear 0 off disabled 123456 FFFFFE 0 > gear 1 on disabled 654321 FFFFFE 1 > table 0: 0=123456 1=654321
> table 1: 1=654321
on 0 > ok
down 1 > ok
up 1 > ok
survey 1 > 1: put 3 01C2
run 1000 > 1: commit enrol 0 123456 > 1: done all-found > ran 206
show > gear 0 on disabled 123456 FFFFFF 0 > gear 1 on disabled 654321 FFFFFE 1 > table 0: 0=123456 1=654321
> table 1: 1=654321 0=123456
