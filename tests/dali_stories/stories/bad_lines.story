-- What is a bad line, and what is said of it.

== the first line says what is set up
bench ! line 1: bad line: a word is missing; the form is `bench N`
bench 1\s ! line 1: bad line: a space at the end of the line
bench 01 ! line 1: bad line: word 2: `01`: a number has no leading zero; the form is `bench N`
bench +1 ! line 1: bad line: word 2: `+1`: a number has no sign; the form is `bench N`
bench -1 ! line 1: bad line: word 2: `-1`: a number has no sign; the form is `bench N`
bench 1000001 ! line 1: bad line: word 2: `1000001`: a number is at most 1000000; the form is `bench N`
bench 99999999999999999999 ! line 1: bad line: word 2: `99999999999999999999`: a number is at most 1000000; the form is `bench N`
bench x ! line 1: bad line: word 2: `x`: a number has decimal digits alone; the form is `bench N`
bench  1 ! line 1: bad line: two spaces in a row: words are separated by one space
\sbench 1 ! line 1: bad line: a space at the beginning of the line
bench 1 2 ! line 1: bad line: word 3: `2`: a word too many; the form is `bench N`
Bench 1 ! line 1: bad line: `Bench` is no first line; did you mean `bench`?
bench 1\r ! line 1: bad line: word 2: `1\r`: a carriage return: the file comes from Windows, and lines end with a line feed alone
sites 1 0-3 ! line 1: bad line: `sites` is no first line; did you mean `site`?

== numbers of a bench have six digits
bench 1
draw ! line 2: bad line: `draw` is no second line; did you mean `draws`?
draws\s ! line 2: bad line: a space at the end of the line
draws 12345 ! line 2: bad line: word 2: `12345`: a random address has six hexadecimal digits, as 0AB12F; the form is `draws RRRRRR ..`
draws 1234567 ! line 2: bad line: word 2: `1234567`: a random address has six hexadecimal digits, as 0AB12F; the form is `draws RRRRRR ..`
draws 12345G ! line 2: bad line: word 2: `12345G`: a random address has six hexadecimal digits, as 0AB12F; the form is `draws RRRRRR ..`
draws 123456  654321 ! line 2: bad line: two spaces in a row: words are separated by one space
draws 123456\s ! line 2: bad line: a space at the end of the line

== used gear have a number, a short address and a random address
site 2 0-3
draws 123456
used 0 0 0ABCDE
used ! line 4: bad line: a word is missing; the form is `used g A RRRRRR`
used\s ! line 4: bad line: a space at the end of the line
used 1 ! line 4: bad line: a word is missing; the form is `used g A RRRRRR`
used 1 1 ! line 4: bad line: a word is missing; the form is `used g A RRRRRR`
used 1 1 12345 ! line 4: bad line: word 4: `12345`: a random address has six hexadecimal digits, as 0AB12F; the form is `used g A RRRRRR`
used 1 1 1234567 ! line 4: bad line: word 4: `1234567`: a random address has six hexadecimal digits, as 0AB12F; the form is `used g A RRRRRR`
used 1 1 12345G ! line 4: bad line: word 4: `12345G`: a random address has six hexadecimal digits, as 0AB12F; the form is `used g A RRRRRR`
used 1 64 654321 ! line 4: bad line: word 3: `64`: addresses end at 63; the form is `used g A RRRRRR`
used 1 01 654321 ! line 4: bad line: word 3: `01`: a number has no leading zero; the form is `used g A RRRRRR`
used 01 1 654321 ! line 4: bad line: word 2: `01`: a number has no leading zero; the form is `used g A RRRRRR`
used 1000001 1 654321 ! line 4: bad line: word 2: `1000001`: a number is at most 1000000; the form is `used g A RRRRRR`
used 1 1 654321\s ! line 4: bad line: a space at the end of the line
used 1 1 654321 0 ! line 4: bad line: word 5: `0`: a word too many; the form is `used g A RRRRRR`
used  1 1 654321 ! line 4: bad line: two spaces in a row: words are separated by one space

== they stand before all that happens
site 2 0-3
draws 123456
quiet > ok
used 0 0 0ABCDE ! line 4: bad line: `used` belongs directly after the second line
used ! line 4: bad line: `used` belongs directly after the second line

== lines of a bench have their words
bench 1
draws
frame A900 > A900 silence
frame ! line 4: bad line: a word is missing; the form is `frame HHHH`
frame A1 ! line 4: bad line: word 2: `A1`: a frame has four hexadecimal digits, as FE80; the form is `frame HHHH`
frame 12345 ! line 4: bad line: word 2: `12345`: a frame has four hexadecimal digits, as FE80; the form is `frame HHHH`
frame A1G0 ! line 4: bad line: word 2: `A1G0`: a frame has four hexadecimal digits, as FE80; the form is `frame HHHH`
frame A100\s ! line 4: bad line: a space at the end of the line
frame  A100 ! line 4: bad line: two spaces in a row: words are separated by one space
frame A100 A100 ! line 4: bad line: word 3: `A100`: a word too many; the form is `frame HHHH`
frames A100 ! line 4: bad line: `frames` is no line of a bench; did you mean `frame`?
Frame A100 ! line 4: bad line: `Frame` is no line of a bench; did you mean `frame`?
frame A100\r ! line 4: bad line: word 2: `A100\r`: a carriage return: the file comes from Windows, and lines end with a line feed alone
off ! line 4: bad line: a word is missing; the form is `off g`
off 01 ! line 4: bad line: word 2: `01`: a number has no leading zero; the form is `off g`
off -1 ! line 4: bad line: word 2: `-1`: a number has no sign; the form is `off g`
off +1 ! line 4: bad line: word 2: `+1`: a number has no sign; the form is `off g`
off 1000001 ! line 4: bad line: word 2: `1000001`: a number is at most 1000000; the form is `off g`
off 0 0 ! line 4: bad line: word 3: `0`: a word too many; the form is `off g`
on ! line 4: bad line: a word is missing; the form is `on g`
on x ! line 4: bad line: word 2: `x`: a number has decimal digits alone; the form is `on g`
expire ! line 4: bad line: a word is missing; the form is `expire g`
expire 1, ! line 4: bad line: word 2: `1,`: a number has decimal digits alone; the form is `expire g`
quiet 0 ! line 4: bad line: word 2: `0`: a word too many; the form is `quiet`
quiet\s ! line 4: bad line: a space at the end of the line
show 0 ! line 4: bad line: word 2: `0`: a word too many; the form is `show`
show\s ! line 4: bad line: a space at the end of the line
\sshow ! line 4: bad line: a space at the beginning of the line
shows ! line 4: bad line: `shows` is no line of a bench; did you mean `show`?
draws ! line 4: bad line: `draws` belongs to the second line
bench 1 ! line 4: bad line: `bench` belongs to the first line
go 0 ! line 4: bad line: `go` belongs to a site
go ! line 4: bad line: `go` belongs to a site
pump ! line 4: bad line: `pump` belongs to a site
lapse ! line 4: bad line: `lapse` belongs to a site
run 1 ! line 4: bad line: `run` belongs to a site
\t ! line 4: bad line: word 1: `\t`: a tab: words are separated by one space

== lines of a site are bad on a bench
bench 1
draws
quiet > ok
go 0 ! line 4: bad line: `go` belongs to a site
store 0 ! line 4: bad line: `store` belongs to a site
fail 0 ! line 4: bad line: `fail` belongs to a site
pump ! line 4: bad line: `pump` belongs to a site
pump lost ! line 4: bad line: `pump` belongs to a site
pump noise ! line 4: bad line: `pump` belongs to a site
pump collision ! line 4: bad line: `pump` belongs to a site
pump destroyed - ! line 4: bad line: `pump` belongs to a site
pump destroyed 0 ! line 4: bad line: `pump` belongs to a site
lapse ! line 4: bad line: `lapse` belongs to a site
arc 0 FE80 ! line 4: bad line: `arc` belongs to a site
down 0 ! line 4: bad line: `down` belongs to a site
up 0 ! line 4: bad line: `up` belongs to a site
run 1 ! line 4: bad line: `run` belongs to a site

== a site needs a number of gear
site ! line 1: bad line: a word is missing; the form is `site N BLOCK ..`
site\s ! line 1: bad line: a space at the end of the line
site x ! line 1: bad line: word 2: `x`: a number has decimal digits alone; the form is `site N BLOCK ..`
site 0-3 ! line 1: bad line: word 2: `0-3`: a number has decimal digits alone; the form is `site N BLOCK ..`
site 01 0-3 ! line 1: bad line: word 2: `01`: a number has no leading zero; the form is `site N BLOCK ..`
site +1 0-3 ! line 1: bad line: word 2: `+1`: a number has no sign; the form is `site N BLOCK ..`
site -1 0-3 ! line 1: bad line: word 2: `-1`: a number has no sign; the form is `site N BLOCK ..`
site 1000001 0-3 ! line 1: bad line: word 2: `1000001`: a number is at most 1000000; the form is `site N BLOCK ..`
site 99999999999999999999 0-3 ! line 1: bad line: word 2: `99999999999999999999`: a number is at most 1000000; the form is `site N BLOCK ..`
site  1 0-3 ! line 1: bad line: two spaces in a row: words are separated by one space
\ssite 1 0-3 ! line 1: bad line: a space at the beginning of the line
site\t1 0-3 ! line 1: bad line: word 1: `site\t1`: a tab: words are separated by one space
Site 1 0-3 ! line 1: bad line: `Site` is no first line; did you mean `site`?
sites 1 0-3 ! line 1: bad line: `sites` is no first line; did you mean `site`?
bench 1 0-3 ! line 1: bad line: word 3: `0-3`: a word too many; the form is `bench N`
\tsite 1 0-3 ! line 1: bad line: word 1: `\tsite`: a tab: words are separated by one space

== a block is two numbers
site 1\s ! line 1: bad line: a space at the end of the line
site 1 0 ! line 1: bad line: word 3: `0`: a block is `first-last`, as 0-15; the form is `site N BLOCK ..`
site 1 - ! line 1: bad line: word 3: `-`: a block is `first-last`, as 0-15; the form is `site N BLOCK ..`
site 1 0- ! line 1: bad line: word 3: `0-`: a block is `first-last`, as 0-15; the form is `site N BLOCK ..`
site 1 -3 ! line 1: bad line: word 3: `-3`: a block is `first-last`, as 0-15; the form is `site N BLOCK ..`
site 1 0--3 ! line 1: bad line: word 3: `0--3`: a block is `first-last`, as 0-15; the form is `site N BLOCK ..`
site 1 0-3-5 ! line 1: bad line: word 3: `0-3-5`: a block is `first-last`, as 0-15; the form is `site N BLOCK ..`
site 1 0-3- ! line 1: bad line: word 3: `0-3-`: a block is `first-last`, as 0-15; the form is `site N BLOCK ..`
site 1 00-3 ! line 1: bad line: word 3: `00-3`: a number has no leading zero; the form is `site N BLOCK ..`
site 1 0-03 ! line 1: bad line: word 3: `0-03`: a number has no leading zero; the form is `site N BLOCK ..`
site 1 +0-3 ! line 1: bad line: word 3: `+0-3`: a number has no sign; the form is `site N BLOCK ..`
site 1 0-+3 ! line 1: bad line: word 3: `0-+3`: a number has no sign; the form is `site N BLOCK ..`
site 1 0-256 ! line 1: bad line: word 3: `0-256`: addresses end at 63; the form is `site N BLOCK ..`
site 1 256-0 ! line 1: bad line: word 3: `256-0`: addresses end at 63; the form is `site N BLOCK ..`
site 1 0-1000000 ! line 1: bad line: word 3: `0-1000000`: addresses end at 63; the form is `site N BLOCK ..`
site 1 0-99999999999999999999 ! line 1: bad line: word 3: `0-99999999999999999999`: addresses end at 63; the form is `site N BLOCK ..`
site 1 a-b ! line 1: bad line: word 3: `a-b`: a block is `first-last`, as 0-15; the form is `site N BLOCK ..`
site 1 0,3 ! line 1: bad line: word 3: `0,3`: a block is `first-last`, as 0-15; the form is `site N BLOCK ..`
site 1 0-3,4-7 ! line 1: bad line: word 3: `0-3,4-7`: a block is `first-last`, as 0-15; the form is `site N BLOCK ..`
site 1 0-3\s ! line 1: bad line: a space at the end of the line
site 1 0-3  4-7 ! line 1: bad line: two spaces in a row: words are separated by one space
site 1  0-3 ! line 1: bad line: two spaces in a row: words are separated by one space
site 1 0 -3 ! line 1: bad line: word 3: `0`: a block is `first-last`, as 0-15; the form is `site N BLOCK ..`
site 1 0-3\t4-7 ! line 1: bad line: word 3: `0-3\t4-7`: a tab: words are separated by one space
site 1 0-3\t ! line 1: bad line: word 3: `0-3\t`: a tab: words are separated by one space
site 1 0-3\r ! line 1: bad line: word 3: `0-3\r`: a carriage return: the file comes from Windows, and lines end with a line feed alone
site 1 0-3 4-7 8- ! line 1: bad line: word 5: `8-`: a block is `first-last`, as 0-15; the form is `site N BLOCK ..`

== numbers of a site have six digits
site 1 0-3
draw ! line 2: bad line: `draw` is no second line; did you mean `draws`?
draws\s ! line 2: bad line: a space at the end of the line
draws 12345 ! line 2: bad line: word 2: `12345`: a random address has six hexadecimal digits, as 0AB12F; the form is `draws RRRRRR ..`
draws 1234567 ! line 2: bad line: word 2: `1234567`: a random address has six hexadecimal digits, as 0AB12F; the form is `draws RRRRRR ..`
draws 12345G ! line 2: bad line: word 2: `12345G`: a random address has six hexadecimal digits, as 0AB12F; the form is `draws RRRRRR ..`
draws +12345 ! line 2: bad line: word 2: `+12345`: a random address has six hexadecimal digits, as 0AB12F; the form is `draws RRRRRR ..`
draws 123456\s ! line 2: bad line: a space at the end of the line
draws 123456  654321 ! line 2: bad line: two spaces in a row: words are separated by one space
draws  123456 ! line 2: bad line: two spaces in a row: words are separated by one space
draws 123456,654321 ! line 2: bad line: word 2: `123456,654321`: a random address has six hexadecimal digits, as 0AB12F; the form is `draws RRRRRR ..`
draws\t123456 ! line 2: bad line: word 1: `draws\t123456`: a tab: words are separated by one space
draws 123456\r ! line 2: bad line: word 2: `123456\r`: a carriage return: the file comes from Windows, and lines end with a line feed alone
\sdraws ! line 2: bad line: a space at the beginning of the line
Draws ! line 2: bad line: `Draws` is no second line; did you mean `draws`?
run 1 ! line 2: bad line: `run` belongs to a site
site 1 0-3 ! line 2: bad line: `site` belongs to the first line

== lines of one word have no more
site 2 0-3 4-7
draws
quiet > ok
lapse\s ! line 4: bad line: a space at the end of the line
lapse 0 ! line 4: bad line: word 2: `0`: a word too many; the form is `lapse`
lapse - ! line 4: bad line: word 2: `-`: a word too many; the form is `lapse`
lapses ! line 4: bad line: `lapses` is no line of a site; did you mean `lapse`?
lapse\r ! line 4: bad line: word 1: `lapse\r`: a carriage return: the file comes from Windows, and lines end with a line feed alone
lapse\t ! line 4: bad line: word 1: `lapse\t`: a tab: words are separated by one space
\slapse ! line 4: bad line: a space at the beginning of the line
Lapse ! line 4: bad line: `Lapse` is no line of a site; did you mean `lapse`?
quiet\s ! line 4: bad line: a space at the end of the line
quiet 0 ! line 4: bad line: word 2: `0`: a word too many; the form is `quiet`
quiet - ! line 4: bad line: word 2: `-`: a word too many; the form is `quiet`
quiets ! line 4: bad line: `quiets` is no line of a site; did you mean `quiet`?
quiet\r ! line 4: bad line: word 1: `quiet\r`: a carriage return: the file comes from Windows, and lines end with a line feed alone
quiet\t ! line 4: bad line: word 1: `quiet\t`: a tab: words are separated by one space
\squiet ! line 4: bad line: a space at the beginning of the line
Quiet ! line 4: bad line: `Quiet` is no line of a site; did you mean `quiet`?
show\s ! line 4: bad line: a space at the end of the line
show 0 ! line 4: bad line: word 2: `0`: a word too many; the form is `show`
show - ! line 4: bad line: word 2: `-`: a word too many; the form is `show`
shows ! line 4: bad line: `shows` is no line of a site; did you mean `show`?
show\r ! line 4: bad line: word 1: `show\r`: a carriage return: the file comes from Windows, and lines end with a line feed alone
show\t ! line 4: bad line: word 1: `show\t`: a tab: words are separated by one space
\sshow ! line 4: bad line: a space at the beginning of the line
Show ! line 4: bad line: `Show` is no line of a site; did you mean `show`?

== a pump has one of four troubles
site 2 0-3 4-7
draws
quiet > ok
pump\s ! line 4: bad line: a space at the end of the line
pump\t ! line 4: bad line: word 1: `pump\t`: a tab: words are separated by one space
pump\r ! line 4: bad line: word 1: `pump\r`: a carriage return: the file comes from Windows, and lines end with a line feed alone
\spump ! line 4: bad line: a space at the beginning of the line
Pump ! line 4: bad line: `Pump` is no line of a site; did you mean `pump`?
pumps ! line 4: bad line: `pumps` is no line of a site; did you mean `pump`?
pump 0 ! line 4: bad line: word 2: `0`: a trouble is `lost`, `noise`, `collision` or `destroyed L`; the form is `pump [lost|noise|collision|destroyed L]`
pump - ! line 4: bad line: word 2: `-`: a trouble is `lost`, `noise`, `collision` or `destroyed L`; the form is `pump [lost|noise|collision|destroyed L]`
pump none ! line 4: bad line: word 2: `none`: a trouble is `lost`, `noise`, `collision` or `destroyed L`; the form is `pump [lost|noise|collision|destroyed L]`
pump  lost ! line 4: bad line: two spaces in a row: words are separated by one space
pump lost\s ! line 4: bad line: a space at the end of the line
pump lost 0 ! line 4: bad line: word 3: `0`: a word too many; the form is `pump [lost|noise|collision|destroyed L]`
pump lost - ! line 4: bad line: word 3: `-`: a word too many; the form is `pump [lost|noise|collision|destroyed L]`
pump losts ! line 4: bad line: word 2: `losts`: a trouble is `lost`, `noise`, `collision` or `destroyed L`; the form is `pump [lost|noise|collision|destroyed L]`
pump Lost ! line 4: bad line: word 2: `Lost`: a trouble is `lost`, `noise`, `collision` or `destroyed L`; the form is `pump [lost|noise|collision|destroyed L]`
pump noise\s ! line 4: bad line: a space at the end of the line
pump noise 0 ! line 4: bad line: word 3: `0`: a word too many; the form is `pump [lost|noise|collision|destroyed L]`
pump noise - ! line 4: bad line: word 3: `-`: a word too many; the form is `pump [lost|noise|collision|destroyed L]`
pump collision\s ! line 4: bad line: a space at the end of the line
pump collision 0 ! line 4: bad line: word 3: `0`: a word too many; the form is `pump [lost|noise|collision|destroyed L]`
pump collision - ! line 4: bad line: word 3: `-`: a word too many; the form is `pump [lost|noise|collision|destroyed L]`
pump lost noise ! line 4: bad line: word 3: `noise`: a word too many; the form is `pump [lost|noise|collision|destroyed L]`
pump destroyed ! line 4: bad line: a word is missing; the form is `pump destroyed L`
pump destroy 0 ! line 4: bad line: word 2: `destroy`: a trouble is `lost`, `noise`, `collision` or `destroyed L`; the form is `pump [lost|noise|collision|destroyed L]`

== a set of gear is numbers with commas
site 2 0-3 4-7
draws
quiet > ok
pump destroyed\s ! line 4: bad line: a space at the end of the line
pump destroyed  0 ! line 4: bad line: two spaces in a row: words are separated by one space
pump destroyed 0\s ! line 4: bad line: a space at the end of the line
pump destroyed 0 1 ! line 4: bad line: word 4: `1`: a word too many; the form is `pump destroyed L`
pump destroyed 0, 1 ! line 4: bad line: word 3: `0,`: a list of gear is `-`, or numbers with commas, as 0,2,5; the form is `pump destroyed L`
pump destroyed - - ! line 4: bad line: word 4: `-`: a word too many; the form is `pump destroyed L`
pump destroyed -0 ! line 4: bad line: word 3: `-0`: a number has no sign; the form is `pump destroyed L`
pump destroyed 0- ! line 4: bad line: word 3: `0-`: a list of gear is `-`, or numbers with commas, as 0,2,5; the form is `pump destroyed L`
pump destroyed 0-1 ! line 4: bad line: word 3: `0-1`: a list of gear is `-`, or numbers with commas, as 0,2,5; the form is `pump destroyed L`
pump destroyed -,0 ! line 4: bad line: word 3: `-,0`: a list of gear is `-`, or numbers with commas, as 0,2,5; the form is `pump destroyed L`
pump destroyed 0,- ! line 4: bad line: word 3: `0,-`: a list of gear is `-`, or numbers with commas, as 0,2,5; the form is `pump destroyed L`
pump destroyed , ! line 4: bad line: word 3: `,`: a list of gear is `-`, or numbers with commas, as 0,2,5; the form is `pump destroyed L`
pump destroyed ,0 ! line 4: bad line: word 3: `,0`: a list of gear is `-`, or numbers with commas, as 0,2,5; the form is `pump destroyed L`
pump destroyed 0, ! line 4: bad line: word 3: `0,`: a list of gear is `-`, or numbers with commas, as 0,2,5; the form is `pump destroyed L`
pump destroyed 0,,1 ! line 4: bad line: word 3: `0,,1`: a list of gear is `-`, or numbers with commas, as 0,2,5; the form is `pump destroyed L`
pump destroyed 0,1, ! line 4: bad line: word 3: `0,1,`: a list of gear is `-`, or numbers with commas, as 0,2,5; the form is `pump destroyed L`
pump destroyed 128 ! line 4: bad line: word 3: `128`: the numbers of gear end at 127; the form is `pump destroyed L`
pump destroyed 0,128 ! line 4: bad line: word 3: `0,128`: the numbers of gear end at 127; the form is `pump destroyed L`
pump destroyed 255 ! line 4: bad line: word 3: `255`: the numbers of gear end at 127; the form is `pump destroyed L`
pump destroyed 1000001 ! line 4: bad line: word 3: `1000001`: the numbers of gear end at 127; the form is `pump destroyed L`
pump destroyed 340282366920938463463374607431768211456 ! line 4: bad line: word 3: `340282366920938463463374..`: the numbers of gear end at 127; the form is `pump destroyed L`
pump destroyed 00 ! line 4: bad line: word 3: `00`: a number has no leading zero; the form is `pump destroyed L`
pump destroyed 0,01 ! line 4: bad line: word 3: `0,01`: a number has no leading zero; the form is `pump destroyed L`
pump destroyed +0 ! line 4: bad line: word 3: `+0`: a number has no sign; the form is `pump destroyed L`
pump destroyed 0,+1 ! line 4: bad line: word 3: `0,+1`: a number has no sign; the form is `pump destroyed L`
pump destroyed x ! line 4: bad line: word 3: `x`: a list of gear is `-`, or numbers with commas, as 0,2,5; the form is `pump destroyed L`
pump destroyed 0,x ! line 4: bad line: word 3: `0,x`: a list of gear is `-`, or numbers with commas, as 0,2,5; the form is `pump destroyed L`
pump destroyed 0\t ! line 4: bad line: word 3: `0\t`: a tab: words are separated by one space
pump destroyed 0\r ! line 4: bad line: word 3: `0\r`: a carriage return: the file comes from Windows, and lines end with a line feed alone
pump destroyed 0;1 ! line 4: bad line: word 3: `0;1`: a list of gear is `-`, or numbers with commas, as 0,2,5; the form is `pump destroyed L`

== a frame of another device is no controller's
site 2 0-3 4-7
draws
quiet > ok
foreign ! line 4: bad line: a word is missing; the form is `foreign HHHH`
foreign\s ! line 4: bad line: a space at the end of the line
foreign 0 ! line 4: bad line: word 2: `0`: a frame has four hexadecimal digits, as FE80; the form is `foreign HHHH`
foreign 0 FE80 ! line 4: bad line: word 2: `0`: a frame has four hexadecimal digits, as FE80; the form is `foreign HHHH`
foreign FE8 ! line 4: bad line: word 2: `FE8`: a frame has four hexadecimal digits, as FE80; the form is `foreign HHHH`
foreign FE800 ! line 4: bad line: word 2: `FE800`: a frame has four hexadecimal digits, as FE80; the form is `foreign HHHH`
foreign FE8G ! line 4: bad line: word 2: `FE8G`: a frame has four hexadecimal digits, as FE80; the form is `foreign HHHH`
foreign FE80\s ! line 4: bad line: a space at the end of the line
foreign  FE80 ! line 4: bad line: two spaces in a row: words are separated by one space
foreign FE80 FE80 ! line 4: bad line: word 3: `FE80`: a word too many; the form is `foreign HHHH`
foreign FE80\r ! line 4: bad line: word 2: `FE80\r`: a carriage return: the file comes from Windows, and lines end with a line feed alone
foreign\tFE80 ! line 4: bad line: word 1: `foreign\tFE80`: a tab: words are separated by one space
\sforeign FE80 ! line 4: bad line: a space at the beginning of the line
foreigns FE80 ! line 4: bad line: `foreigns` is no line of a site; did you mean `foreign`?
Foreign FE80 ! line 4: bad line: `Foreign` is no line of a site; did you mean `foreign`?

== arc power has a controller and a frame
site 2 0-3 4-7
draws
quiet > ok
arc ! line 4: bad line: a word is missing; the form is `arc c HHHH`
arc\s ! line 4: bad line: a space at the end of the line
arc 0 ! line 4: bad line: a word is missing; the form is `arc c HHHH`
arc 0\s ! line 4: bad line: a space at the end of the line
arc FE80 ! line 4: bad line: word 2: `FE80`: a number has decimal digits alone; the form is `arc c HHHH`
arc FE80 0 ! line 4: bad line: word 2: `FE80`: a number has decimal digits alone; the form is `arc c HHHH`
arc 0 FE8 ! line 4: bad line: word 3: `FE8`: a frame has four hexadecimal digits, as FE80; the form is `arc c HHHH`
arc 0 FE800 ! line 4: bad line: word 3: `FE800`: a frame has four hexadecimal digits, as FE80; the form is `arc c HHHH`
arc 0 FE8G ! line 4: bad line: word 3: `FE8G`: a frame has four hexadecimal digits, as FE80; the form is `arc c HHHH`
arc 0 FE80\s ! line 4: bad line: a space at the end of the line
arc 0  FE80 ! line 4: bad line: two spaces in a row: words are separated by one space
arc  0 FE80 ! line 4: bad line: two spaces in a row: words are separated by one space
arc 0 FE80 FE80 ! line 4: bad line: word 4: `FE80`: a word too many; the form is `arc c HHHH`
arc 0 FE 80 ! line 4: bad line: word 3: `FE`: a frame has four hexadecimal digits, as FE80; the form is `arc c HHHH`
arc 00 FE80 ! line 4: bad line: word 2: `00`: a number has no leading zero; the form is `arc c HHHH`
arc +0 FE80 ! line 4: bad line: word 2: `+0`: a number has no sign; the form is `arc c HHHH`
arc -1 FE80 ! line 4: bad line: word 2: `-1`: a number has no sign; the form is `arc c HHHH`
arc x FE80 ! line 4: bad line: word 2: `x`: a number has decimal digits alone; the form is `arc c HHHH`
arc 1000001 FE80 ! line 4: bad line: word 2: `1000001`: a number is at most 1000000; the form is `arc c HHHH`
arc 0\tFE80 ! line 4: bad line: word 2: `0\tFE80`: a tab: words are separated by one space
arc 0 FE80\r ! line 4: bad line: word 3: `FE80\r`: a carriage return: the file comes from Windows, and lines end with a line feed alone
\sarc 0 FE80 ! line 4: bad line: a space at the beginning of the line
arcs 0 FE80 ! line 4: bad line: `arcs` is no line of a site; did you mean `arc`?
Arc 0 FE80 ! line 4: bad line: `Arc` is no line of a site; did you mean `arc`?

== lines of a bench and of a plan are bad on a site
site 2 0-3 4-7
draws
quiet > ok
frame A900 ! line 4: bad line: `frame` belongs to a bench
frame ! line 4: bad line: `frame` belongs to a bench
bench 1 ! line 4: bad line: `bench` belongs to the first line
site 1 0-3 ! line 4: bad line: `site` belongs to the first line
draws ! line 4: bad line: `draws` belongs to the second line
draws 123456 ! line 4: bad line: `draws` belongs to the second line
\s ! line 4: bad line: a space at the beginning of the line
\t ! line 4: bad line: word 1: `\t`: a tab: words are separated by one space
GO 0 ! line 4: bad line: `GO` is no line of a site; did you mean `go`?
go 0 # first ! line 4: bad line: word 3: `#`: a comment has a line of its own, which begins with `#`
go 0# ! line 4: bad line: word 2: `0#`: a comment has a line of its own, which begins with `#`
start 0 ! line 4: bad line: `start` is no line of a site: those are `go`, `survey`, `store`, `fail`, `pump`, `lapse`, `arc`, `foreign`, `down`, `up`, `run`, `off`, `on`, `expire`, `quiet` and `show`

== what is said of a first line
\e ! line 1: bad line: the first line is missing, which is `bench N` or `site N BLOCK ..`
\n\n\e ! line 3: bad line: the first line is missing, which is `bench N` or `site N BLOCK ..`
\xEF\xBB\xBFbench 1\e ! line 1: bad line: word 1: `\xEF\xBB\xBFbench`: a byte order mark: save the file as UTF-8 without one
bench 99999999999999999999999999\e ! line 1: bad line: word 2: `999999999999999999999999..`: a number is at most 1000000; the form is `bench N`
bench\t1\e ! line 1: bad line: word 1: `bench\t1`: a tab: words are separated by one space
bench 1 # gear\e ! line 1: bad line: word 3: `#`: a comment has a line of its own, which begins with `#`
lamp 1\e ! line 1: bad line: `lamp` is no first line: those are `bench N` and `site N BLOCK ..`
draws 123456\e ! line 1: bad line: `draws` belongs to the second line
site 1 5\e ! line 1: bad line: word 3: `5`: a block is `first-last`, as 0-15; the form is `site N BLOCK ..`
site 1 0-3 4-5-6\e ! line 1: bad line: word 4: `4-5-6`: a block is `first-last`, as 0-15; the form is `site N BLOCK ..`
site 1 0-1000001\e ! line 1: bad line: word 3: `0-1000001`: addresses end at 63; the form is `site N BLOCK ..`
site 1 0\xE2\x80\x933\e ! line 1: bad line: word 3: `0\xE2\x80\x933`: a byte that no line has: words are printable ASCII characters

== what is said of a second line
bench 1
\e ! line 2: bad line: the second line is missing, which is `draws RRRRRR ..`
\n\e ! line 3: bad line: the second line is missing, which is `draws RRRRRR ..`
show\e ! line 2: bad line: `show` is no second line: that is `draws RRRRRR ..`
bench 1\e ! line 2: bad line: `bench` belongs to the first line
draws 0x1234\e ! line 2: bad line: word 2: `0x1234`: a random address has six hexadecimal digits, as 0AB12F; the form is `draws RRRRRR ..`
draws 123456 12345\e ! line 2: bad line: word 3: `12345`: a random address has six hexadecimal digits, as 0AB12F; the form is `draws RRRRRR ..`
draws 123456,654321\e ! line 2: bad line: word 2: `123456,654321`: a random address has six hexadecimal digits, as 0AB12F; the form is `draws RRRRRR ..`

== what is said of used gear
site 2 0-3
draws 123456
used 1\e ! line 3: bad line: a word is missing; the form is `used g A RRRRRR`
used 1 64 654321\e ! line 3: bad line: word 3: `64`: addresses end at 63; the form is `used g A RRRRRR`
used 1 01 654321\e ! line 3: bad line: word 3: `01`: a number has no leading zero; the form is `used g A RRRRRR`
used 1 1000001 654321\e ! line 3: bad line: word 3: `1000001`: addresses end at 63; the form is `used g A RRRRRR`
used 1 1 65432G\e ! line 3: bad line: word 4: `65432G`: a random address has six hexadecimal digits, as 0AB12F; the form is `used g A RRRRRR`
used 1 1 654321 0\e ! line 3: bad line: word 5: `0`: a word too many; the form is `used g A RRRRRR`

== what is said of lines of a bench
bench 1
draws
quiet > ok
shwo\e ! line 4: bad line: `shwo` is no line of a bench; did you mean `show`?
Show\e ! line 4: bad line: `Show` is no line of a bench; did you mean `show`?
shows\e ! line 4: bad line: `shows` is no line of a bench; did you mean `show`?
used 0 0 123456\e ! line 4: bad line: `used` belongs directly after the second line
draws\e ! line 4: bad line: `draws` belongs to the second line
lamp\e ! line 4: bad line: `lamp` is no line of a bench: those are `frame`, `off`, `on`, `expire`, `quiet` and `show`
frame A1\e ! line 4: bad line: word 2: `A1`: a frame has four hexadecimal digits, as FE80; the form is `frame HHHH`
frame 0xA100\e ! line 4: bad line: word 2: `0xA100`: a frame has four hexadecimal digits, as FE80; the form is `frame HHHH`
frame\e ! line 4: bad line: a word is missing; the form is `frame HHHH`
frame A100 A100\e ! line 4: bad line: word 3: `A100`: a word too many; the form is `frame HHHH`
off one\e ! line 4: bad line: word 2: `one`: a number has decimal digits alone; the form is `off g`
show # all\e ! line 4: bad line: word 2: `#`: a comment has a line of its own, which begins with `#`
show\r\e ! line 4: bad line: word 1: `show\r`: a carriage return: the file comes from Windows, and lines end with a line feed alone
show \x1B[31m\e ! line 4: bad line: word 2: `\x1B[31m`: a byte that no line has: words are printable ASCII characters
\t\e ! line 4: bad line: word 1: `\t`: a tab: words are separated by one space
\s\e ! line 4: bad line: a space at the beginning of the line

== what is said of lines of a site
site 2 0-3 4-7
draws
\e
# a run
quiet > ok
frame A900\e ! line 6: bad line: `frame` belongs to a bench
site 1 0-3\e ! line 6: bad line: `site` belongs to the first line
GO 0\e ! line 6: bad line: `GO` is no line of a site; did you mean `go`?
pmup\e ! line 6: bad line: `pmup` is no line of a site; did you mean `pump`?
xhow\e ! line 6: bad line: `xhow` is no line of a site; did you mean `show`?
how\e ! line 6: bad line: `how` is no line of a site; did you mean `show`?
start 0\e ! line 6: bad line: `start` is no line of a site: those are `go`, `survey`, `store`, `fail`, `pump`, `lapse`, `arc`, `foreign`, `down`, `up`, `run`, `off`, `on`, `expire`, `quiet` and `show`
go\e ! line 6: bad line: a word is missing; the form is `go c`
go 0 0\e ! line 6: bad line: word 3: `0`: a word too many; the form is `go c`
go 0#\e ! line 6: bad line: word 2: `0#`: a comment has a line of its own, which begins with `#`
lapse 0\e ! line 6: bad line: word 2: `0`: a word too many; the form is `lapse`
pump none\e ! line 6: bad line: word 2: `none`: a trouble is `lost`, `noise`, `collision` or `destroyed L`; the form is `pump [lost|noise|collision|destroyed L]`
pump lost 0\e ! line 6: bad line: word 3: `0`: a word too many; the form is `pump [lost|noise|collision|destroyed L]`
pump destroyed\e ! line 6: bad line: a word is missing; the form is `pump destroyed L`
pump destroyed 0-1\e ! line 6: bad line: word 3: `0-1`: a list of gear is `-`, or numbers with commas, as 0,2,5; the form is `pump destroyed L`
pump destroyed 0,,1\e ! line 6: bad line: word 3: `0,,1`: a list of gear is `-`, or numbers with commas, as 0,2,5; the form is `pump destroyed L`
pump destroyed 0,128\e ! line 6: bad line: word 3: `0,128`: the numbers of gear end at 127; the form is `pump destroyed L`
pump destroyed 0,01\e ! line 6: bad line: word 3: `0,01`: a number has no leading zero; the form is `pump destroyed L`
pump destroyed 0 1\e ! line 6: bad line: word 4: `1`: a word too many; the form is `pump destroyed L`
arc x FE80\e ! line 6: bad line: word 2: `x`: a number has decimal digits alone; the form is `arc c HHHH`
arc 0 FE8\e ! line 6: bad line: word 3: `FE8`: a frame has four hexadecimal digits, as FE80; the form is `arc c HHHH`
arc 0\e ! line 6: bad line: a word is missing; the form is `arc c HHHH`
run 1000001\e ! line 6: bad line: word 2: `1000001`: a number is at most 1000000; the form is `run n`

== a script needs its first two lines
\e ! line 1: bad line: the first line is missing, which is `bench N` or `site N BLOCK ..`
\n\n\e ! line 3: bad line: the first line is missing, which is `bench N` or `site N BLOCK ..`
bench 1\e ! line 2: bad line: the second line is missing, which is `draws RRRRRR ..`
bench 1\n\e ! line 2: bad line: the second line is missing, which is `draws RRRRRR ..`
bench 1\n\n\e ! line 3: bad line: the second line is missing, which is `draws RRRRRR ..`
site 1 0-3\e ! line 2: bad line: the second line is missing, which is `draws RRRRRR ..`
site 1 0-3\n\e ! line 2: bad line: the second line is missing, which is `draws RRRRRR ..`
site 1 0-3\n\n# draws\n\e ! line 4: bad line: the second line is missing, which is `draws RRRRRR ..`
draws\nbench 1\e ! line 1: bad line: `draws` belongs to the second line

== skipped lines are counted
# a site\n\nsite 1 0-3
draws
\n# quiet
quiet > ok
go\e ! line 8: bad line: a word is missing; the form is `go c`

== the largest numbers are read
site 1 0-3
draws
go 1000000 > refused 1 UnknownController
off 1000000 > refused 1 UnknownGear
pump destroyed 127 > idle
pump destroyed 0,127,126 > idle
off 0 > ok
run 1000000 > 0: done all-found > ran 10
