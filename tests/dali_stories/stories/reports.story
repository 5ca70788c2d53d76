-- Reports of more than one line: two gear and a table, and before them refusals and a bus that has nothing to send.

== reports of many lines
site 2 0-3 4-7
draws 123456 654321
show > gear 0 on disabled FFFFFF FFFFFF - > gear 1 on disabled FFFFFF FFFFFF - > table 0: > table 1:
up 0 > refused 2 ControllerUp
pump > idle
off 2 > refused 1 UnknownGear
go 0 > 0: put 3 A100
pump noise > 0: sent A100 damaged
run 500 > refused 6 DrawsSpent > ran 8
go 1 > refused 3 NotDue
show > gear 0 on enabled 123456 FFFFFF - > gear 1 on enabled 654321 FFFFFF - > table 0: > table 1:
down 1 > ok
show > gear 0 on enabled 123456 FFFFFF - > gear 1 on enabled 654321 FFFFFF - > table 0: > table 1:
