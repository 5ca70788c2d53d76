-- When a controller gives up: transactions that are lost and searches that lead to no gear, in a row.

:: destroyed opening
go 0 > 0: put 3 A100
pump destroyed - > 0: destroyed A100

== the eighth destroyed frame ends the commissioning
site 1 0-3
draws
+ 8 destroyed opening
go 0 > 0: done gave-up

== an answer by noise sends the search where nobody is
-- On an empty bus the damaged answer to the first COMPARE is YES: the search ends at FFFFFE, and the visit is silent.
site 1 0-3
draws 123456
off 0 > ok
run 8 > ran 8
go 0 > 0: put 1 A900
pump noise > 0: sent A900 damaged
run 1000 > 0: done all-found > ran 101

== a second query without answer is a silent search
-- The gear has its address, which the next visit hears.
site 1 0-3
draws 123456
run 115 > 0: commit reserve 0 123456 > ran 114
go 0 > 0: put 1 BB00
pump lost > 0: sent BB00 silence
go 0 > 0: put 3 B1FF
run 1000 > 0: commit enrol 0 123456 > 0: done all-found > ran 110

== a survey calls the roll once more before it gives up
-- Controller 0 gives the gear that answered the last roll call of controller 1 its address. So three draws of
-- controller 1 are in vain.
site 5 0-3 4-7
draws 123456
used 1 36 3C7548
used 2 37 99F3DB
used 3 55 970AB6
used 4 19 498070
survey 0 > 0: put 3 01C2
survey 1 > 1: put 3 01C2
run 700 > 0: commit enrol 19 498070 > 1: commit enrol 19 498070 > 0: commit enrol 36 3C7548
> 0: commit enrol 37 99F3DB > 1: commit enrol 36 3C7548 > 1: commit enrol 37 99F3DB > 0: commit enrol 55 970AB6
> 1: commit enrol 55 970AB6 > 0: commit reserve 0 123456 > 0: commit enrol 0 123456 > 0: done all-found
> 1: done all-found > ran 655
show > gear 0 on disabled 123456 FFFFFE 0 > gear 1 on disabled 3C7548 FFFFFF 36 > gear 2 on disabled 99F3DB FFFFFF 37
> gear 3 on disabled 970AB6 FFFFFF 55 > gear 4 on disabled 498070 FFFFFF 19
> table 0: 19=498070 36=3C7548 37=99F3DB 55=970AB6 0=123456 > table 1: 19=498070 36=3C7548 37=99F3DB 55=970AB6

:: destroyed probe
go 0 > 0: put 3 B1FF
pump destroyed - > 0: destroyed B1FF

:: silent search
run 3 > ran 3
go 0 > 0: put 1 A900
pump noise > 0: sent A900 damaged
run 96 > ran 96

:: unheard search
run 103 > ran 103
go 0 > 0: put 1 BB00
pump lost > 0: sent BB00 silence

:: unheard twice
go 0 > 0: put 1 BB00
pump lost > 0: sent BB00 silence
run 72 > ran 72
go 0 > 0: put 1 BB00
pump lost > 0: sent BB00 silence

== gear whose answers are lost for good keep no other from its address
-- Gear 0 is passed over, and gear 1 is served. At the fourth roll call that is heard since then gear 0 draws a new
-- random address; at the eighth the survey gives up.
site 2 0-3
draws 100000 200000 300000
survey 0 > 0: put 3 01C2
run 284 > ran 284
+ unheard twice
run 171 > 0: commit reserve 0 200000 > 0: commit enrol 0 200000 > ran 169
+ unheard twice
run 96 > ran 96
+ unheard twice
run 96 > ran 96
+ unheard twice
run 101 > ran 101
+ unheard twice
run 94 > ran 94
+ unheard twice
run 94 > ran 94
+ unheard twice
run 94 > ran 94
+ unheard twice
run 1000 > 0: done gave-up > ran 23
show > gear 0 on disabled 300000 FFFFFF - > gear 1 on disabled 200000 FFFFFE 0 > table 0: 0=200000

== the sixteenth silent search gives up
site 1 0-3
draws
off 0 > ok
run 5 > ran 5
+ 16 silent search
run 1000 > 0: done gave-up > ran 1

== visits of the start are no silent searches
-- The restarted controller visits 123456, for which it has reserved an address, and hears none, nor the gear that has
-- that address. Were that visit counted, the commissioning would give up at the fifteenth silent search after it.
site 1 0-3
draws 123456
run 110 > 0: commit reserve 0 123456 > ran 109
store 0 > ok
off 0 > ok
down 0 > ok
up 0 > ok
run 12 > ran 12
+ 16 silent search
run 1000 > 0: done gave-up > ran 1

== silent searches are counted anew after a find
-- Fifteen of them before each of two gear is enrolled.
site 2 0-3
draws 123456 654321
run 5 > ran 5
+ 15 unheard search
run 113 > 0: commit reserve 0 123456 > 0: commit enrol 0 123456 > ran 111
+ 15 unheard search
run 1000 > 0: commit reserve 1 654321 > 0: commit enrol 1 654321 > 0: done all-found > ran 116

== tries are counted anew after a transaction
-- Seven destroyed frames before the opening and seven before the first probe. Were the tries not counted anew, the
-- first of the second seven would end the commissioning.
site 1 0-3
draws 123456
+ 7 destroyed opening
run 5 > ran 5
+ 7 destroyed probe
run 1000 > 0: commit reserve 0 123456 > 0: commit enrol 0 123456 > 0: done all-found > ran 116

== tries are counted anew after a visit that is passed by
-- A survey hears noise under address 0, which is reserved for 123456. It visits that gear twice, since the first query
-- is destroyed, hears that it has no address, and closes: the address may be another's. Was the lost visit counted, the
-- close would end at its seventh loss.
site 1 0-0
draws 123456
run 110 > 0: commit reserve 0 123456 > ran 109
store 0 > ok
down 0 > ok
up 0 > ok
survey 0 > 0: put 3 01C2
pump noise > 0: sent 01C2 damaged
run 268 > ran 268
go 0 > 0: put 1 BB00
pump destroyed - > 0: destroyed BB00
run 4 > ran 4
+ 8 destroyed opening
go 0 > 0: done gave-up
