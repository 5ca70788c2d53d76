-- Plans: those that are refused, for which cause, and the widest that are taken.

== plans are refused in order
bench 129\ndraws FFFFFF ! plan refused: GearCount: line 1, word 2: `129`: a bus has 1 to 128 gear
bench 1\ndraws 000001 FFFFFF 000001 ! plan refused: DrawTooLarge: line 2, word 3: `FFFFFF`: no gear draws FFFFFF
bench 1\ndraws 123456 0ABCDE 123456 ! plan refused: DrawTwice: line 2, word 4: `123456`: each number to draw stands once; see line 2, word 2: `123456`
bench 1\ndraws abcdef ABCDEF\nshow ! plan refused: DrawTwice: line 2, word 3: `ABCDEF`: each number to draw stands once; see line 2, word 2: `abcdef`
site 0\ndraws FFFFFF ! plan refused: GearCount: line 1, word 2: `0`: a bus has 1 to 128 gear
site 0 0-3\ndraws ! plan refused: GearCount: line 1, word 2: `0`: a bus has 1 to 128 gear
site 129 4-3\ndraws ! plan refused: GearCount: line 1, word 2: `129`: a bus has 1 to 128 gear
site 1000000 0-3\ndraws ! plan refused: GearCount: line 1, word 2: `1000000`: a bus has 1 to 128 gear
site 1\ndraws FFFFFF ! plan refused: ControllerCount: line 1, word 1: `site`: a site has 1 to 4 controllers, and a block for each
site 1 0-3 4-7 8-11 12-15 16-19\ndraws ! plan refused: ControllerCount: line 1, word 7: `16-19`: a site has 1 to 4 controllers, and a block for each
site 1 4-3 0-64 0-3 0-3 0-3\ndraws FFFFFF ! plan refused: ControllerCount: line 1, word 7: `0-3`: a site has 1 to 4 controllers, and a block for each
site 1 0-0 1-1 2-2 3-3 4-4 5-5 6-6 7-7 8-8 9-9\ndraws ! plan refused: ControllerCount: line 1, word 7: `4-4`: a site has 1 to 4 controllers, and a block for each
site 1 4-3\ndraws ! plan refused: BlockOrder: line 1, word 3: `4-3`: the first address of a block is not above its last
site 1 64-64\ndraws ! plan refused: BlockOrder: line 1, word 3: `64-64`: addresses end at 63
site 1 255-255\ndraws ! plan refused: BlockOrder: line 1, word 3: `255-255`: addresses end at 63
site 1 0-255\ndraws ! plan refused: BlockOrder: line 1, word 3: `0-255`: addresses end at 63
site 1 0-3 3-5 9-8\ndraws FFFFFF ! plan refused: BlockOrder: line 1, word 5: `9-8`: the first address of a block is not above its last
site 2 0-3 3-5\ndraws ! plan refused: BlockOverlap: line 1, word 4: `3-5`: no address stands in two blocks; see line 1, word 3: `0-3`
site 1 3-5 0-3\ndraws ! plan refused: BlockOverlap: line 1, word 4: `0-3`: no address stands in two blocks; see line 1, word 3: `3-5`
site 1 0-63 5-5\ndraws FFFFFF ! plan refused: BlockOverlap: line 1, word 4: `5-5`: no address stands in two blocks; see line 1, word 3: `0-63`
site 1 0-0 1-1 2-2 0-0\ndraws 123456 123456 ! plan refused: BlockOverlap: line 1, word 6: `0-0`: no address stands in two blocks; see line 1, word 3: `0-0`
site 1 0-3\ndraws FFFFFF ! plan refused: DrawTooLarge: line 2, word 2: `FFFFFF`: no gear draws FFFFFF
site 1 0-3\ndraws 000001 000001 ffffff ! plan refused: DrawTooLarge: line 2, word 4: `ffffff`: no gear draws FFFFFF
site 1 0-3\ndraws 123456 123456 ! plan refused: DrawTwice: line 2, word 3: `123456`: each number to draw stands once; see line 2, word 2: `123456`
site 4 0-63\ndraws abcdef 000001 ABCDEF\nshow\ngo ! plan refused: DrawTwice: line 2, word 4: `ABCDEF`: each number to draw stands once; see line 2, word 2: `abcdef`
site 2 0-3\ndraws 123456\nused 2 0 0ABCDE ! plan refused: UnknownGear: line 3, word 2: `2`: gear are counted from 0, up to one less than there are; see line 1, word 2: `2`
bench 1\ndraws\nused 1 0 0ABCDE\nshow ! plan refused: UnknownGear: line 3, word 2: `1`: gear are counted from 0, up to one less than there are; see line 1, word 2: `1`
site 2 0-3\ndraws 123456\nused 0 1 FFFFFF\nused 0 1 FFFFFF\nused 1000000 1 123456 ! plan refused: UnknownGear: line 5, word 2: `1000000`: gear are counted from 0, up to one less than there are; see line 1, word 2: `2`
site 2 0-3\ndraws 123456\nused 0 1 0ABCDE\nused 0 1 FFFFFF\nshow ! plan refused: GearTwice: line 4, word 2: `0`: a gear has one line `used` at most; see line 3, word 2: `0`
site 2 0-3\ndraws 123456\nused 0 1 FFFFFF\nused 1 1 FFFFFF ! plan refused: ShortTwice: line 4, word 3: `1`: a short address is that of one gear alone; see line 3, word 3: `1`
site 2 0-3\ndraws 123456\nused 0 1 ffffff\nused 1 2 ffffff ! plan refused: RandomTooLarge: line 3, word 4: `ffffff`: FFFFFF is the random address of gear that drew none
site 2 0-3\ndraws 123456\nused 0 1 0ABCDE\nused 1 2 0abcde ! plan refused: RandomTwice: line 4, word 4: `0abcde`: a random address is that of one gear alone, and is not drawn again; see line 3, word 4: `0ABCDE`
site 2 0-3\ndraws 000001 123456\nused 0 1 123456\nshow ! plan refused: RandomTwice: line 3, word 4: `123456`: a random address is that of one gear alone, and is not drawn again; see line 2, word 3: `123456`

== what is said of refused plans
bench 0\ndraws ! plan refused: GearCount: line 1, word 2: `0`: a bus has 1 to 128 gear
# a bench\nbench 129\ndraws ! plan refused: GearCount: line 2, word 2: `129`: a bus has 1 to 128 gear
site 1\ndraws ! plan refused: ControllerCount: line 1, word 1: `site`: a site has 1 to 4 controllers, and a block for each
site 1 0-1 2-3 4-5 6-7 8-9\ndraws ! plan refused: ControllerCount: line 1, word 7: `8-9`: a site has 1 to 4 controllers, and a block for each
site 1 0-64\ndraws ! plan refused: BlockOrder: line 1, word 3: `0-64`: addresses end at 63
site 1 0-3 70-65\ndraws ! plan refused: BlockOrder: line 1, word 4: `70-65`: addresses end at 63
site 1 0-3 9-5\ndraws ! plan refused: BlockOrder: line 1, word 4: `9-5`: the first address of a block is not above its last
site 1 8-9 0-3 3-5\ndraws ! plan refused: BlockOverlap: line 1, word 5: `3-5`: no address stands in two blocks; see line 1, word 4: `0-3`
bench 1\ndraws 123456 FFFFFF ! plan refused: DrawTooLarge: line 2, word 3: `FFFFFF`: no gear draws FFFFFF
bench 1\n\ndraws 0abcde 123456 0ABCDE ! plan refused: DrawTwice: line 3, word 4: `0ABCDE`: each number to draw stands once; see line 3, word 2: `0abcde`
site 2 0-3\ndraws\nused 1 1 123456\nused 2 2 654321 ! plan refused: UnknownGear: line 4, word 2: `2`: gear are counted from 0, up to one less than there are; see line 1, word 2: `2`
site 2 0-3\ndraws\nused 1 1 123456\n# again\nused 1 2 654321 ! plan refused: GearTwice: line 5, word 2: `1`: a gear has one line `used` at most; see line 3, word 2: `1`
site 2 0-3\ndraws\nused 1 1 123456\nused 0 1 654321 ! plan refused: ShortTwice: line 4, word 3: `1`: a short address is that of one gear alone; see line 3, word 3: `1`
site 2 0-3\ndraws\nused 1 1 123456\nused 0 2 FFFFFF ! plan refused: RandomTooLarge: line 4, word 4: `FFFFFF`: FFFFFF is the random address of gear that drew none
site 2 0-3\ndraws\nused 1 1 123456\nused 0 2 123456 ! plan refused: RandomTwice: line 4, word 4: `123456`: a random address is that of one gear alone, and is not drawn again; see line 3, word 4: `123456`
site 2 0-3\ndraws 654321 123456\nused 1 1 123456 ! plan refused: RandomTwice: line 3, word 4: `123456`: a random address is that of one gear alone, and is not drawn again; see line 2, word 3: `123456`

== a bad second line comes before a refused plan
bench 500\ndraws 12\e ! line 2: bad line: word 2: `12`: a random address has six hexadecimal digits, as 0AB12F; the form is `draws RRRRRR ..`
site 0\ndraws 12345\e ! line 2: bad line: word 2: `12345`: a random address has six hexadecimal digits, as 0AB12F; the form is `draws RRRRRR ..`
site 500 0-3\ndraw\e ! line 2: bad line: `draw` is no second line; did you mean `draws`?
site 1\n\e ! line 2: bad line: the second line is missing, which is `draws RRRRRR ..`
site 1 4-3\nshow\e ! line 2: bad line: `show` is no second line: that is `draws RRRRRR ..`
site 1 0-3 3-5\ndraws FFFFFF 12\e ! line 2: bad line: word 3: `12`: a random address has six hexadecimal digits, as 0AB12F; the form is `draws RRRRRR ..`
site 1 0-3\ndraws 123456 123456\s\e ! line 2: bad line: a space at the end of the line

== the widest plan is taken: site 128 0-63
site 128 0-63
draws 000000 FFFFFE
quiet > ok

== the widest plan is taken: site 1 63-63 0-0 2-61 1-1
site 1 63-63 0-0 2-61 1-1
draws
quiet > ok

== the widest plan is taken: bench 128
bench 128
draws 000000 FFFFFE
quiet > ok
