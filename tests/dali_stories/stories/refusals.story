-- What a site refuses: each refusal that a line can report, which comes first if two causes hold, and what is left of
-- it.

== a controller that is not there is unknown
site 1 0-3 4-7
draws
go 2 > refused 1 UnknownController
store 2 > refused 1 UnknownController
fail 2 > refused 1 UnknownController
arc 2 FE80 > refused 1 UnknownController
arc 2 A100 > refused 1 UnknownController
down 2 > refused 1 UnknownController
up 2 > refused 1 UnknownController
go 4 > refused 1 UnknownController
go 255 > refused 1 UnknownController
go 256 > refused 1 UnknownController
up 257 > refused 1 UnknownController
go 1000000 > refused 1 UnknownController
show > gear 0 on disabled FFFFFF FFFFFF - > table 0: > table 1:

== gear that is not there is unknown
site 2 0-3
draws
off 2 > refused 1 UnknownGear
on 2 > refused 1 UnknownGear
expire 2 > refused 1 UnknownGear
off 128 > refused 1 UnknownGear
on 255 > refused 1 UnknownGear
expire 256 > refused 1 UnknownGear
off 257 > refused 1 UnknownGear
off 1000000 > refused 1 UnknownGear
show > gear 0 on disabled FFFFFF FFFFFF - > gear 1 on disabled FFFFFF FFFFFF - > table 0:

== a controller that is down does nothing
site 1 0-3 4-7
draws 123456
down 0 > ok
go 0 > refused 2 ControllerDown
store 0 > refused 2 ControllerDown
fail 0 > refused 2 ControllerDown
arc 0 FE80 > refused 2 ControllerDown
arc 0 A100 > refused 2 ControllerDown
down 0 > refused 2 ControllerDown
pump > idle
go 1 > 1: put 3 A100
up 0 > ok
go 0 > 0: put 3 A100

== a controller that is up does not come up
site 1 0-3
draws 123456
up 0 > refused 2 ControllerUp
go 0 > 0: put 3 A100
up 0 > refused 2 ControllerUp
down 0 > ok
up 0 > ok
up 0 > refused 2 ControllerUp
go 0 > 0: put 3 A100

== what is not due is refused
-- At the start, while a frame is outstanding, when it was heard, at the commit of a record that the store has, and
-- after the end.
site 1 0-3
draws 123456
store 0 > refused 3 NotDue
fail 0 > refused 3 NotDue
go 0 > 0: put 3 A100
go 0 > refused 3 NotDue
store 0 > refused 3 NotDue
fail 0 > refused 3 NotDue
pump > 0: sent A100 silence
store 0 > refused 3 NotDue
fail 0 > refused 3 NotDue
go 0 > 0: put 1 A5FF
go 0 > refused 3 NotDue
run 109 > 0: commit reserve 0 123456 > ran 108
store 0 > ok
store 0 > refused 3 NotDue
go 0 > 0: put 3 B112
store 0 > refused 3 NotDue
run 1000 > 0: commit enrol 0 123456 > 0: done all-found > ran 12
go 0 > refused 3 NotDue
store 0 > refused 3 NotDue
fail 0 > refused 3 NotDue
pump > idle

== nothing is due after a halt
-- A controller that has halted may still ask for arc power.
site 1 0-3
draws 123456
run 110 > 0: commit reserve 0 123456 > ran 109
fail 0 > 0: halt store
go 0 > refused 3 NotDue
store 0 > refused 3 NotDue
fail 0 > refused 3 NotDue
pump > idle
run 5 > ran 0
arc 0 FE80 > 0: put 2 FE80
pump > 0: sent FE80 silence
down 0 > ok

== after a lapse its owner is told that alone
site 1 0-3
draws 123456
run 3 > ran 3
lapse > lapse 0
store 0 > refused 3 NotDue
fail 0 > refused 3 NotDue
lapse > lapse -
go 0 > 0: put 3 A100
go 0 > refused 3 NotDue
pump > 0: sent A100 silence
go 0 > 0: put 1 A5FF

== only arc power may be asked for
site 1 0-3
draws
arc 0 A100 > refused 4 NotArc
arc 0 A5FF > refused 4 NotArc
arc 0 01C2 > refused 4 NotArc
arc 0 FFFF > refused 4 NotArc
arc 0 0100 > refused 4 NotArc
arc 0 FE80 > 0: put 2 FE80
arc 0 0000 > 0: put 2 0000
arc 0 AAAA > 0: put 2 AAAA

== a frame of another device is no addressing command
-- Addressing commands, of which PHYSICAL SELECTION (BD00) is one of edition 1; RESET and SET SHORT ADDRESS to one gear,
-- all, a group, and those without address. Arc power with these bytes is another frame, and so is one to an address
-- byte that is reserved (CD to FB).
site 1 0-3
draws
foreign A100 > refused 11 NotForeign
foreign A5FF > refused 11 NotForeign
foreign A501 > refused 11 NotForeign
foreign A700 > refused 11 NotForeign
foreign A900 > refused 11 NotForeign
foreign AB00 > refused 11 NotForeign
foreign B112 > refused 11 NotForeign
foreign B334 > refused 11 NotForeign
foreign B556 > refused 11 NotForeign
foreign B701 > refused 11 NotForeign
foreign B901 > refused 11 NotForeign
foreign BB00 > refused 11 NotForeign
foreign BD00 > refused 11 NotForeign
foreign 01C2 > refused 11 NotForeign
foreign 7FC4 > refused 11 NotForeign
foreign 0120 > refused 11 NotForeign
foreign FF20 > refused 11 NotForeign
foreign FD20 > refused 11 NotForeign
foreign 8120 > refused 11 NotForeign
foreign 0180 > refused 11 NotForeign
foreign FF80 > refused 11 NotForeign
foreign FD80 > refused 11 NotForeign
foreign 9F80 > refused 11 NotForeign
foreign FE20 > ok
foreign 0000 > ok
foreign 0105 > ok
foreign A101 > ok
foreign A3FF > ok
foreign A120 > ok
foreign BD01 > ok
foreign BF00 > ok
foreign C180 > ok
foreign CD20 > ok
foreign E120 > ok
foreign FB20 > ok
foreign FB80 > ok

== a full queue is refused last but the log
-- An unknown controller, one that is down, what is not due and what is no arc power come before the full queue.
site 1 0-3 4-7
draws
down 1 > ok
*64 arc 0 FE80 > 0: put 2 FE80
go 0 > refused 7 QueueFull
arc 0 FE80 > refused 7 QueueFull
arc 0 A100 > refused 4 NotArc
fail 0 > refused 3 NotDue
store 0 > refused 3 NotDue
go 1 > refused 2 ControllerDown
arc 1 FE80 > refused 2 ControllerDown
go 2 > refused 1 UnknownController
run 3 > refused 7 QueueFull > ran 0
pump > 0: sent FE80 silence
go 0 > 0: put 3 A100
go 0 > refused 3 NotDue
arc 0 FE80 > refused 7 QueueFull

== a go that is refused for the queue leaves its commit made
-- The store has the record, so that `store` finds nothing due; the next `go` makes no second commit.
site 1 0-3
draws 123456
run 110 > 0: commit reserve 0 123456 > ran 109
*64 arc 0 FE80 > 0: put 2 FE80
go 0 > refused 7 QueueFull
store 0 > refused 3 NotDue
fail 0 > refused 7 QueueFull
go 0 > refused 7 QueueFull
pump > 0: sent FE80 silence
go 0 > 0: put 3 B112
run 1000 > 0: commit enrol 0 123456 > 0: done all-found > ran 75

== a controller that halts after a refused go takes up its record
site 1 0-3
draws 123456
run 110 > 0: commit reserve 0 123456 > ran 109
*64 arc 0 FE80 > 0: put 2 FE80
go 0 > refused 7 QueueFull
pump > 0: sent FE80 silence
fail 0 > 0: halt store
down 0 > ok
up 0 > ok
run 1000 > 0: commit enrol 0 123456 > 0: done all-found > ran 17

== a controller that goes down after a refused go takes up its record
site 1 0-3
draws 123456
run 110 > 0: commit reserve 0 123456 > ran 109
*64 arc 0 FE80 > 0: put 2 FE80
go 0 > refused 7 QueueFull
down 0 > ok
up 0 > ok
run 1000 > 0: commit enrol 0 123456 > 0: done all-found > ran 17
show > gear 0 on disabled 123456 123456 0 > table 0: 0=123456

== a fail that is refused for the queue makes no commit
site 1 0-3
draws 123456 654321
run 110 > 0: commit reserve 0 123456 > ran 109
*64 arc 0 FE80 > 0: put 2 FE80
fail 0 > refused 7 QueueFull
down 0 > ok
up 0 > ok
run 1000 > 0: commit reserve 0 654321 > 0: commit enrol 0 654321 > 0: done all-found > ran 121
show > gear 0 on disabled 654321 FFFFFE 0 > table 0: 0=654321

== a run that is refused for the queue leaves its commit made
site 1 0-3
draws 123456
run 110 > 0: commit reserve 0 123456 > ran 109
*64 arc 0 FE80 > 0: put 2 FE80
run 1000 > refused 7 QueueFull > ran 0
store 0 > refused 3 NotDue
pump > 0: sent FE80 silence
run 1000 > 0: commit enrol 0 123456 > 0: done all-found > ran 75
show > gear 0 on disabled 123456 FFFFFE 0 > table 0: 0=123456

== a full log takes no event
-- The log has room for 65,536 events. Each other cause comes before the full log, and an idle pump is no event.
site 2 0-3 4-7
draws 123456
down 1 > ok
*65535 quiet > ok
quiet > refused 8 LogFull
foreign FE80 > refused 8 LogFull
foreign A100 > refused 8 LogFull
go 0 > refused 8 LogFull
arc 0 FE80 > refused 8 LogFull
lapse > refused 8 LogFull
off 0 > refused 8 LogFull
on 0 > refused 8 LogFull
expire 0 > refused 8 LogFull
down 0 > refused 8 LogFull
up 1 > refused 8 LogFull
pump > idle
run 5 > refused 8 LogFull > ran 0
go 2 > refused 1 UnknownController
go 1 > refused 2 ControllerDown
fail 0 > refused 3 NotDue
store 0 > refused 3 NotDue
arc 0 A100 > refused 4 NotArc
up 0 > refused 2 ControllerUp
down 1 > refused 2 ControllerDown
up 2 > refused 1 UnknownController
off 2 > refused 1 UnknownGear
expire 2 > refused 1 UnknownGear
show > gear 0 on disabled FFFFFF FFFFFF - > gear 1 on disabled FFFFFF FFFFFF - > table 0: > table 1:

== a full log sends no frame
site 1 0-3
draws 123456
go 0 > 0: put 3 A100
*65535 quiet > ok
pump > refused 8 LogFull
pump lost > refused 8 LogFull
pump noise > refused 8 LogFull
pump collision > refused 8 LogFull
pump destroyed 0 > refused 8 LogFull
go 0 > refused 3 NotDue
lapse > refused 8 LogFull
show > gear 0 on disabled FFFFFF FFFFFF - > table 0:

== the last event of a log is taken
site 1 0-3
draws 123456
go 0 > 0: put 3 A100
*65534 quiet > ok
pump > 0: sent A100 silence
go 0 > refused 8 LogFull
pump > idle
run 1000 > refused 8 LogFull > ran 0

== spent draws come before a full log
site 1 0-3
draws
run 1000 > refused 6 DrawsSpent > ran 4
*65527 on 0 > ok
pump > refused 6 DrawsSpent
pump destroyed 0 > refused 6 DrawsSpent
pump destroyed - > refused 8 LogFull
pump collision > refused 8 LogFull
on 0 > refused 8 LogFull

== a full queue comes before a full log
site 1 0-3
draws
*64 arc 0 FE80 > 0: put 2 FE80
*65472 quiet > ok
quiet > refused 8 LogFull
go 0 > refused 7 QueueFull
arc 0 FE80 > refused 7 QueueFull
arc 0 A100 > refused 4 NotArc
fail 0 > refused 3 NotDue
pump > refused 8 LogFull
run 1 > refused 7 QueueFull > ran 0

== a go that is refused for the log leaves its commit made
site 1 0-3
draws 123456
run 110 > 0: commit reserve 0 123456 > ran 109
*65317 quiet > ok
go 0 > refused 8 LogFull
store 0 > refused 3 NotDue
fail 0 > refused 8 LogFull
down 0 > refused 8 LogFull
go 0 > refused 8 LogFull

== a fail that is refused for the log makes no commit
-- A commit in the store is no event: `store` works though the log is full.
site 1 0-3
draws 123456
run 110 > 0: commit reserve 0 123456 > ran 109
*65317 quiet > ok
fail 0 > refused 8 LogFull
store 0 > ok
store 0 > refused 3 NotDue
go 0 > refused 8 LogFull
