-- One trouble in a commissioning: answers that are lost or damaged, frames that are destroyed or collide, lapses, gear
-- that lose their power or their initialisation.

== an answer lost before program begins a new search
site 1 0-3
draws 123456
run 113 > 0: commit reserve 0 123456 > ran 112
go 0 > 0: put 1 BB00
pump lost > 0: sent BB00 silence
go 0 > 0: put 3 B1FF
run 1000 > 0: commit enrol 0 123456 > 0: done all-found > ran 112

== a destroyed program may have been taken
-- The gear took the destroyed PROGRAM SHORT ADDRESS, so the visit that begins again finds it with its address.
site 1 0-3
draws 123456
run 114 > 0: commit reserve 0 123456 > ran 113
go 0 > 0: put 1 B701
pump destroyed 0 > 0: destroyed B701
go 0 > 0: put 3 B112
run 1000 > 0: commit enrol 0 123456 > 0: done all-found > ran 10

== a lapse empties the queue of the owner
site 1 0-3
draws 123456
run 114 > 0: commit reserve 0 123456 > ran 113
go 0 > 0: put 1 B701
lapse > lapse 0
pump > idle
go 0 > 0: put 3 B112
run 1000 > 0: commit enrol 0 123456 > 0: done all-found > ran 12

== gear that lose power after program are found by a restart
-- The gear keeps address 0 and is disabled, so neither the search nor the visit of the restart is answered; the queries
-- of its random address are.
site 1 0-3
draws 123456
run 115 > 0: commit reserve 0 123456 > ran 114
off 0 > ok
run 1000 > 0: done all-found > ran 6
on 0 > ok
show > gear 0 on disabled 123456 FFFFFF 0 > table 0:
down 0 > ok
up 0 > ok
run 1000 > 0: commit enrol 0 123456 > 0: done all-found > ran 17

== of two gear that lost power one is still off
-- Each lost its power just after it was programmed. The one that is off is found by a later restart.
site 2 0-3
draws 123456 654321
run 115 > 0: commit reserve 0 123456 > ran 114
off 0 > ok
run 111 > 0: commit reserve 1 654321 > ran 110
off 1 > ok
run 1000 > 0: done all-found > ran 6
on 1 > ok
down 0 > ok
up 0 > ok
run 1000 > 0: commit enrol 1 654321 > 0: done all-found > ran 24
on 0 > ok
down 0 > ok
up 0 > ok
run 1000 > 0: commit enrol 0 123456 > 0: done all-found > ran 17
show > gear 0 on disabled 123456 FFFFFF 0 > gear 1 on disabled 654321 FFFFFF 1 > table 0: 1=654321 0=123456

== a collision destroys both and arc power goes first
site 1 0-1 2-3
draws 123456
go 0 > 0: put 3 A100
go 1 > 1: put 3 A100
pump collision > 0: destroyed A100, 1: destroyed A100
go 0 > 0: put 3 A100
go 1 > 1: put 3 A100
arc 1 FE80 > 1: put 2 FE80
pump > 1: sent FE80 silence

== a disabled gear takes no program
-- The gear is disabled between QUERY SHORT ADDRESS and PROGRAM SHORT ADDRESS. A gear that took the program all the same
-- would show address 0.
site 1 0-3
draws 123456
run 114 > 0: commit reserve 0 123456 > ran 113
expire 0 > ok
go 0 > 0: put 1 B701
pump > 0: sent B701 silence
show > gear 0 on disabled 123456 123456 - > table 0:
run 1000 > 0: done all-found > ran 6
show > gear 0 on disabled 123456 123456 - > table 0:

== a disabled gear is not withdrawn
-- A gear that executed WITHDRAW all the same would show `withdrawn`.
site 1 0-3
draws 123456
run 116 > 0: commit reserve 0 123456 > ran 115
show > gear 0 on enabled 123456 123456 0 > table 0:
expire 0 > ok
go 0 > 0: put 1 AB00
pump > 0: sent AB00 silence
show > gear 0 on disabled 123456 123456 0 > table 0:
run 1000 > 0: commit enrol 0 123456 > 0: done all-found > ran 5
show > gear 0 on disabled 123456 123456 0 > table 0: 0=123456

== compare is answered at the very number
-- The lost answer is that to COMPARE under 123456, the last of the search, which then finds 123457 and hears no gear
-- there. The next search ends at 123456. A gear that answered only if its number is less would not answer that COMPARE:
-- the same reports up to here, then again 123457, sixteen times, and `gave-up`.
site 1 0-3
draws 123456
run 104 > ran 104
go 0 > 0: put 1 A900
pump lost > 0: sent A900 silence
run 1000 > 0: commit reserve 0 123456 > 0: commit enrol 0 123456 > 0: done all-found > ran 120
show > gear 0 on disabled 123456 FFFFFE 0 > table 0: 0=123456

== a lapse without an owner is told to nobody
site 1 0-3
draws 123456
lapse > lapse -
go 0 > 0: put 3 A100
lapse > lapse -
pump > 0: sent A100 silence
lapse > lapse 0
lapse > lapse -
go 0 > 0: put 3 A100
run 0 > ran 0

== a set of gear counts each once
-- Gear 1 alone takes the destroyed second RANDOMISE, and draws one number.
site 2 0-3
draws 123456 654321
run 4 > ran 4
go 0 > 0: put 1 A700
pump destroyed 1,1,1 > 0: destroyed A700
show > gear 0 on enabled FFFFFF FFFFFF - > gear 1 on enabled 123456 FFFFFF - > table 0:
go 0 > 0: put 3 A100

== a set names gear that are not there or off
site 2 0-3
draws 123456
off 1 > ok
run 4 > ran 4
go 0 > 0: put 1 A700
pump destroyed 0,1,2,127 > 0: destroyed A700
show > gear 0 on enabled 123456 FFFFFF - > gear 1 off disabled FFFFFF FFFFFF - > table 0:
go 0 > 0: put 3 A100

== power and timer of gear that are off
-- Off, a gear keeps its state and its search address, and the timer still ends; on again, it is disabled and its search
-- address FFFFFF.
site 1 0-3
draws 123456
run 110 > 0: commit reserve 0 123456 > ran 109
off 0 > ok
show > gear 0 off enabled 123456 123456 - > table 0:
off 0 > ok
expire 0 > ok
show > gear 0 off disabled 123456 123456 - > table 0:
on 0 > ok
show > gear 0 on disabled 123456 FFFFFF - > table 0:
on 0 > ok
expire 0 > ok
show > gear 0 on disabled 123456 FFFFFF - > table 0:

== power of a gear that is on changes nothing
-- The half pair stands: the second RANDOMISE draws.
site 1 0-3
draws 123456
run 4 > ran 4
on 0 > ok
go 0 > 0: put 1 A700
pump > 0: sent A700 silence
show > gear 0 on enabled 123456 FFFFFF - > table 0:

== a quiet bus breaks the pair of an opening
-- The gear has drawn no number, and FFFFFF is above FFFFFE: no gear is found.
site 1 0-3
draws 123456
run 4 > ran 4
quiet > ok
go 0 > 0: put 1 A700
pump > 0: sent A700 silence
run 1000 > 0: done all-found > ran 5
show > gear 0 on disabled FFFFFF FFFFFE - > table 0:

== a frame of another device breaks the pair of an opening
-- As with a quiet bus; no controller hears of it.
site 1 0-3
draws 123456
run 4 > ran 4
foreign FE80 > ok
go 0 > 0: put 1 A700
pump > 0: sent A700 silence
run 1000 > 0: done all-found > ran 5
show > gear 0 on disabled FFFFFF FFFFFE - > table 0:

== frames of other devices between two frames of a transaction change nothing
-- Before the frame is put, before it is sent, and before its answer is acted on.
site 1 0-3
draws 123456
run 113 > 0: commit reserve 0 123456 > ran 112
foreign FE80 > ok
go 0 > 0: put 1 BB00
foreign 0105 > ok
pump > 0: sent BB00 byte FF
foreign A3FF > ok
run 1000 > 0: commit enrol 0 123456 > 0: done all-found > ran 8
show > gear 0 on disabled 123456 FFFFFE 0 > table 0: 0=123456

== destroyed frames that no gear takes need no number
-- One gear, no number. The second RANDOMISE is refused wherever the gear would take it.
site 1 0-3
draws
run 1000 > refused 6 DrawsSpent > ran 4
pump > refused 6 DrawsSpent
pump lost > refused 6 DrawsSpent
pump noise > refused 6 DrawsSpent
pump destroyed 0 > refused 6 DrawsSpent
pump destroyed - > 0: destroyed A700
go 0 > 0: put 3 A100
run 1000 > refused 6 DrawsSpent > ran 4
pump collision > 0: destroyed A700
go 0 > 0: put 3 A100

== a collision is one with the next of the same list
-- Another list, the same sender and the owner's list 1 have no second frame.
site 1 0-1 2-3
draws 123456
arc 0 FE80 > 0: put 2 FE80
go 1 > 1: put 3 A100
pump collision > 0: destroyed FE80
arc 0 FE80 > 0: put 2 FE80
arc 0 FE81 > 0: put 2 FE81
pump collision > 0: destroyed FE80
arc 1 0000 > 1: put 2 0000
pump collision > 0: destroyed FE81, 1: destroyed 0000
pump collision > 1: destroyed A100
go 1 > 1: put 3 A100
pump > 1: sent A100 silence
go 1 > 1: put 1 A5FF
go 0 > 0: put 3 A100
pump collision > 1: destroyed A5FF
go 0 > refused 3 NotDue
go 1 > 1: put 3 A100

== damaged answers are yes to compare and nothing to a query
site 1 0-3
draws 123456
run 8 > ran 8
go 0 > 0: put 1 A900
pump noise > 0: sent A900 damaged
run 103 > 0: commit reserve 0 123456 > ran 102
go 0 > 0: put 1 B556
pump noise > 0: sent B556 damaged
run 1000 > 0: commit enrol 0 123456 > 0: done all-found > ran 9

:: programmed and off
site 1 0-3
draws 123456
run 115 > 0: commit reserve 0 123456 > ran 114
off 0 > ok
run 1000 > 0: done all-found > ran 6
on 0 > ok
down 0 > ok
up 0 > ok

:: not found
run 1000 > 0: done all-found > ran 10
show > gear 0 on disabled 123456 FFFFFF 0 > table 0:

:: found
run 1000 > 0: commit enrol 0 123456 > 0: done all-found > ran 13
show > gear 0 on disabled 123456 FFFFFF 0 > table 0: 0=123456

== a random address is asked for: run 4; go 0; pump lost
-- A byte of a random address is lost.
+ programmed and off
run 4 > ran 4
go 0 > 0: put 3 01C2
pump lost > 0: sent 01C2 silence
run 2 > ran 2
+ not found

== a random address is asked for: run 5; go 0; pump lost
+ programmed and off
run 5 > ran 5
go 0 > 0: put 1 01C3
pump lost > 0: sent 01C3 silence
run 1 > ran 1
+ not found

== a random address is asked for: run 6; go 0; pump lost
+ programmed and off
run 6 > ran 6
go 0 > 0: put 1 01C4
pump lost > 0: sent 01C4 silence
+ not found

== a random address is asked for: run 4; go 0; pump noise
-- A byte of a random address is damaged.
+ programmed and off
run 4 > ran 4
go 0 > 0: put 3 01C2
pump noise > 0: sent 01C2 damaged
run 2 > ran 2
+ not found

== a random address is asked for: run 5; go 0; pump noise
+ programmed and off
run 5 > ran 5
go 0 > 0: put 1 01C3
pump noise > 0: sent 01C3 damaged
run 1 > ran 1
+ not found

== a random address is asked for: run 6; go 0; pump noise
+ programmed and off
run 6 > ran 6
go 0 > 0: put 1 01C4
pump noise > 0: sent 01C4 damaged
+ not found

== a random address is asked for: run 4; go 0; pump destroyed -
-- A query of a random address is destroyed. All three are sent again.
+ programmed and off
run 4 > ran 4
go 0 > 0: put 3 01C2
pump destroyed - > 0: destroyed 01C2
+ found

== a random address is asked for: run 5; go 0; pump destroyed 0
+ programmed and off
run 5 > ran 5
go 0 > 0: put 1 01C3
pump destroyed 0 > 0: destroyed 01C3
+ found

== a random address is asked for: run 6; go 0; pump destroyed -
+ programmed and off
run 6 > ran 6
go 0 > 0: put 1 01C4
pump destroyed - > 0: destroyed 01C4
+ found

== a random address is asked for: run 5; lapse
-- The bus lapses among queries of a random address.
+ programmed and off
run 5 > ran 5
lapse > lapse 0
+ found

== a random address is asked for: run 6; lapse
+ programmed and off
run 6 > ran 6
lapse > lapse 0
+ found
