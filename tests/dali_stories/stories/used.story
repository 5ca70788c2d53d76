-- Used gear: gear that come with a short and a random address.

== used gear stand in their places from the start, on a bench too
-- QUERY RANDOM ADDRESS (H), (M) and (L) to 63, 0 and 1.
bench 3
draws 123456
used 2 63 FFFFFE
# A comment stands between them.
used 0 0 00abcd
show > gear 0 on disabled 00ABCD FFFFFF 0 > gear 1 on disabled FFFFFF FFFFFF - > gear 2 on disabled FFFFFE FFFFFF 63
frame 7FC2 > 7FC2 byte FF
frame 01C3 > 01C3 byte AB
frame 7FC4 > 7FC4 byte FE
frame 03C2 > 03C2 silence

== a survey enrols used gear and gives their address to nobody
-- It asks 0, which answers three times, and then 1 to 63.
site 2 0-3
draws 123456
used 0 0 0ABCDE
survey 0 > 0: put 3 01C2
run 1000 > 0: commit enrol 0 0ABCDE > 0: commit reserve 1 123456 > 0: commit enrol 1 123456 > 0: done all-found
> ran 322
show > gear 0 on disabled 0ABCDE FFFFFF 0 > gear 1 on disabled 123456 FFFFFE 1 > table 0: 0=0ABCDE 1=123456

== a start is refused the address of used gear, and a survey goes on
-- The frames up to the reservation are those of a site from the factory.
site 2 0-3
draws 123456
used 0 0 0ABCDE
run 1000 > refused 10 AddressInUse > ran 109
go 0 > refused 10 AddressInUse
run 5 > refused 10 AddressInUse > ran 0
show > gear 0 on disabled 0ABCDE FFFFFF 0 > gear 1 on enabled 123456 123456 - > table 0:
down 0 > ok
up 0 > ok
survey 0 > 0: put 3 01C2
run 1000 > 0: commit enrol 0 0ABCDE > 0: commit reserve 1 123456 > 0: commit enrol 1 123456 > 0: done all-found
> ran 309
show > gear 0 on disabled 0ABCDE FFFFFF 0 > gear 1 on disabled 123456 FFFFFE 1 > table 0: 0=0ABCDE 1=123456

== an address of used gear that is in no block is in nobody's way
site 2 0-3
draws 123456
used 1 9 0ABCDE
run 1000 > 0: commit reserve 0 123456 > 0: commit enrol 0 123456 > 0: done all-found > ran 121
show > gear 0 on disabled 123456 FFFFFE 0 > gear 1 on disabled 0ABCDE FFFFFF 9 > table 0: 0=123456

== used gear without power are not heard, and their address is refused
-- No controller hears it: 192 frames of silence. The other gear never drew: 7 frames of a roll call, 5 of a hunt, 8 in
-- which it draws, 69 that search, and a visit of 4. Then the controller would reserve the address of the used one. With
-- power that is heard, once the controller asks anew.
site 2 0-3
draws 123456 654321
used 0 0 0ABCDE
off 0 > ok
survey 0 > 0: put 3 01C2
run 1000 > refused 10 AddressInUse > ran 285
on 0 > ok
go 0 > refused 10 AddressInUse
down 0 > ok
up 0 > ok
survey 0 > 0: put 3 01C2
run 1000 > 0: commit enrol 0 0ABCDE > 0: commit reserve 1 123456 > 0: commit enrol 1 123456 > 0: done all-found
> ran 309
show > gear 0 on disabled 0ABCDE FFFFFF 0 > gear 1 on disabled 123456 FFFFFE 1 > table 0: 0=0ABCDE 1=123456

== a gear in the place of one that is gone gets its address
-- 192 frames are those of a survey that hears no gear: three for each address, silent or not.
site 4 5-5
draws 123456
used 0 4 0ABCDE
used 2 6 0BCDEF
used 3 7 0CDEF0
survey 0 > 0: put 3 01C2
run 1093 > 0: commit enrol 4 0ABCDE > 0: commit enrol 6 0BCDEF > 0: commit enrol 7 0CDEF0 > 0: commit reserve 5 123456
> 0: commit enrol 5 123456 > 0: done all-found > ran 322
show > gear 0 on disabled 0ABCDE FFFFFF 4 > gear 1 on disabled 123456 FFFFFE 5 > gear 2 on disabled 0BCDEF FFFFFF 6
> gear 3 on disabled 0CDEF0 FFFFFF 7 > table 0: 4=0ABCDE 6=0BCDEF 7=0CDEF0 5=123456

== and none where somebody has it
-- Some gear has 5 already, so it is not given: 192 frames of questions, 7 of a roll call, 5 of a hunt, and the close.
site 2 5-5
draws 123456
used 0 5 0ABCDE
survey 0 > 0: put 3 01C2
run 1093 > 0: commit enrol 5 0ABCDE > 0: done block-full > ran 205
show > gear 0 on disabled 0ABCDE FFFFFF 5 > gear 1 on disabled FFFFFF FFFFFE - > table 0: 5=0ABCDE

== one controller is refused, and another one is not
-- Controller 1 may give other addresses, and goes on.
site 3 0-3 4-7
draws 111111 222222 333333 444444
used 2 0 0ABCDE
down 1 > ok
run 1000 > refused 10 AddressInUse > ran 109
down 0 > ok
up 1 > ok
run 1000 > 1: commit reserve 4 333333 > 1: commit enrol 4 333333 > 1: commit reserve 5 444444
> 1: commit enrol 5 444444 > 1: done all-found > ran 232
show > gear 0 on disabled 333333 FFFFFE 4 > gear 1 on disabled 444444 FFFFFE 5 > gear 2 on disabled 0ABCDE FFFFFF 0
> table 0: > table 1: 4=333333 5=444444
