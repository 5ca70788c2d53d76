-- Benches of gear, by the standard's rules and this project's profile.

== a pair is broken by another frame
bench 1
draws 123456
*2 frame A5FF > A5FF silence
frame A700 > A700 silence
frame FE80 > FE80 silence
frame A700 > A700 silence
show > gear 0 on enabled FFFFFF FFFFFF -
frame A700 > A700 silence
show > gear 0 on enabled 123456 FFFFFF -

== a pair is forgotten when the bus is quiet
bench 1
draws
frame A5FF > A5FF silence
quiet > ok
frame A5FF > A5FF silence
show > gear 0 on disabled FFFFFF FFFFFF -
frame A5FF > A5FF silence
show > gear 0 on enabled FFFFFF FFFFFF -
expire 0 > ok
show > gear 0 on disabled FFFFFF FFFFFF -

== a short address is programmed by hand
-- QUERY SHORT ADDRESS hears MASK before, the address after; VERIFY SHORT ADDRESS is YES for it alone.
bench 1
draws 123456
*2 frame A5FF > A5FF silence
*2 frame A700 > A700 silence
frame B112 > B112 silence
frame B334 > B334 silence
frame B556 > B556 silence
frame BB00 > BB00 byte FF
frame B70B > B70B silence
frame BB00 > BB00 byte 0B
frame B90B > B90B byte FF
frame B90D > B90D silence
frame B9FF > B9FF silence
frame AB00 > AB00 silence
frame A900 > A900 silence
frame BB00 > BB00 byte 0B
show > gear 0 on withdrawn 123456 123456 5

== an addressed gear tells its random address
-- It does so also after TERMINATE, where it answers no QUERY SHORT ADDRESS, and after it was off; no other does.
bench 1
draws 123456
*2 frame A5FF > A5FF silence
*2 frame A700 > A700 silence
frame B112 > B112 silence
frame B334 > B334 silence
frame B556 > B556 silence
frame B701 > B701 silence
frame A100 > A100 silence
frame 01C2 > 01C2 byte 12
frame 01C3 > 01C3 byte 34
frame 01C4 > 01C4 byte 56
frame 03C2 > 03C2 silence
frame BB00 > BB00 silence
off 0 > ok
frame 01C2 > 01C2 silence
on 0 > ok
frame 01C2 > 01C2 byte 12

== disabled gear ignore the initialisation
-- While DISABLED: no search address, no number drawn, no address stored, no withdrawal, no answer.
bench 1
draws 123456
frame B112 > B112 silence
frame B334 > B334 silence
frame B556 > B556 silence
*2 frame A700 > A700 silence
frame B70B > B70B silence
frame AB00 > AB00 silence
frame A900 > A900 silence
frame BB00 > BB00 silence
frame B90B > B90B silence
show > gear 0 on disabled FFFFFF FFFFFF -

== terminate ends the initialisation
bench 1
draws
*2 frame A5FF > A5FF silence
frame A101 > A101 silence
show > gear 0 on enabled FFFFFF FFFFFF -
frame A100 > A100 silence
show > gear 0 on disabled FFFFFF FFFFFF -

== a withdrawn gear is enabled again
bench 1
draws
*2 frame A500 > A500 silence
frame AB00 > AB00 silence
show > gear 0 on withdrawn FFFFFF FFFFFF -
*2 frame A500 > A500 silence
show > gear 0 on enabled FFFFFF FFFFFF -

== a third equal frame begins a new pair
-- The third RANDOMISE is the first of a pair, so the fourth draws again.
bench 1
draws 000001 000002
*2 frame A5FF > A5FF silence
*3 frame A700 > A700 silence
show > gear 0 on enabled 000001 FFFFFF -
frame A700 > A700 silence
show > gear 0 on enabled 000002 FFFFFF -

== power brings back the addresses alone
bench 1
draws 123456
*2 frame A5FF > A5FF silence
*2 frame A700 > A700 silence
frame B112 > B112 silence
frame B334 > B334 silence
frame B556 > B556 silence
frame B70B > B70B silence
frame A700 > A700 silence
off 0 > ok
frame A700 > A700 silence
show > gear 0 off enabled 123456 123456 5
on 0 > ok
show > gear 0 on disabled 123456 FFFFFF 5
frame A5FF > A5FF silence
frame A700 > A700 silence
frame A5FF > A5FF silence
on 0 > ok
frame A5FF > A5FF silence
show > gear 0 on disabled 123456 FFFFFF 5

== unknown gear is refused
bench 1
draws
off 1 > refused 1 UnknownGear
on 1 > refused 1 UnknownGear
expire 128 > refused 1 UnknownGear
off 1000000 > refused 1 UnknownGear
show > gear 0 on disabled FFFFFF FFFFFF -

== spent draws change nothing
-- Two gear, one number: no gear takes the frame, at each repeat.
bench 2
draws 123456
*2 frame A5FF > A5FF silence
frame A700 > A700 silence
*2 frame A700 > refused 6 DrawsSpent
show > gear 0 on enabled FFFFFF FFFFFF - > gear 1 on enabled FFFFFF FFFFFF -
off 1 > ok
frame A700 > A700 silence
show > gear 0 on enabled 123456 FFFFFF - > gear 1 off enabled FFFFFF FFFFFF -

== an erased address is gone and a malformed byte changes nothing
bench 1
draws
*2 frame A500 > A500 silence
frame B70B > B70B silence
frame B702 > B702 silence
frame B781 > B781 silence
show > gear 0 on enabled FFFFFF FFFFFF 5
frame B7FF > B7FF silence
show > gear 0 on enabled FFFFFF FFFFFF -

== 1 gear that never drew a number found under the mask
bench 1
draws
*2 frame A5FF > A5FF silence
frame A900 > A900 byte FF
frame B5FE > B5FE silence
frame A900 > A900 silence

== 2 gear that never drew a number found under the mask
bench 2
draws
*2 frame A5FF > A5FF silence
frame A900 > A900 damaged
frame B5FE > B5FE silence
frame A900 > A900 silence

:: one address
-- Gear 0 has address 5 and gear 1 none, and no initialisation runs.
bench 2
draws 000001 000002
*2 frame A500 > A500 silence
*2 frame A700 > A700 silence
frame B100 > B100 silence
frame B300 > B300 silence
frame B501 > B501 silence
frame B70B > B70B silence
frame A100 > A100 silence

== initialise speaks to gear without address
+ one address
*2 frame A5FF > A5FF silence
show > gear 0 on disabled 000001 000001 5 > gear 1 on enabled 000002 000001 -

== initialise speaks to 5
+ one address
*2 frame A50B > A50B silence
show > gear 0 on enabled 000001 000001 5 > gear 1 on disabled 000002 000001 -

== initialise speaks to 6
+ one address
*2 frame A50D > A50D silence
show > gear 0 on disabled 000001 000001 5 > gear 1 on disabled 000002 000001 -

== initialise speaks to none by a malformed byte
+ one address
*2 frame A502 > A502 silence
show > gear 0 on disabled 000001 000001 5 > gear 1 on disabled 000002 000001 -

== initialise speaks to all
+ one address
*2 frame A500 > A500 silence
show > gear 0 on enabled 000001 000001 5 > gear 1 on enabled 000002 000001 -

== comments and empty lines are skipped and counted
# a comment
\nbench 1
#draws
draws
\nframe A900 > A900 silence
# next
frame ! line 9: bad line: a word is missing; the form is `frame HHHH`

== a comment may end a script
bench 1
draws
# a comment\e
