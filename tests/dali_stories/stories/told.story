-- What a story says of a script: whole, or of a line that which stands behind a `~`.

== a bench has its story [story]
-- INITIALISE and RANDOMISE, with direct arc power between the first pair of RANDOMISE, which is none then; the gear
-- draws at the second pair, and loses its power. A line is refused, and one shows the gear.
bench 1
draws 123456
*2 frame A500
frame A700
frame FE80
*2 frame A700
off 0
off 7
show
{"story":1,"source":"bench","controllers":0,"gear":[{"gear":0,"power":"on","state":"disabled","random":"FFFFFF","search":"FFFFFF","short":null}],"script":"bench 1\ndraws 123456\nframe A500\nframe A500\nframe A700\nframe FE80\nframe A700\nframe A700\noff 0\noff 7\nshow\n"}
{"line":3,"report":"A500 silence\n"}
{"event":0,"kind":"sent","bits":19,"controller":0,"frame":"A500","command":"INITIALISE all","transaction":0,"place":0,"heard":"silence","answers":[],"changed":[]}
{"line":4,"report":"A500 silence\n"}
{"event":1,"kind":"sent","bits":38,"controller":0,"frame":"A500","command":"INITIALISE all","transaction":0,"place":1,"heard":"silence","answers":[],"changed":[{"gear":0,"power":"on","state":"enabled","random":"FFFFFF","search":"FFFFFF","short":null}]}
{"line":5,"report":"A700 silence\n"}
{"event":2,"kind":"sent","bits":57,"controller":0,"frame":"A700","command":"RANDOMISE","transaction":0,"place":2,"heard":"silence","answers":[],"changed":[]}
{"line":6,"report":"FE80 silence\n"}
{"event":3,"kind":"sent","bits":76,"controller":0,"frame":"FE80","command":"DAPC","transaction":1,"place":0,"heard":"silence","answers":[],"changed":[]}
{"line":7,"report":"A700 silence\n"}
{"event":4,"kind":"sent","bits":95,"controller":0,"frame":"A700","command":"RANDOMISE","transaction":1,"place":1,"heard":"silence","answers":[],"changed":[]}
{"line":8,"report":"A700 silence\n"}
{"event":5,"kind":"sent","bits":114,"controller":0,"frame":"A700","command":"RANDOMISE","transaction":1,"place":2,"heard":"silence","answers":[],"changed":[{"gear":0,"power":"on","state":"enabled","random":"123456","search":"FFFFFF","short":null}]}
{"line":9,"report":"ok\n"}
{"event":6,"kind":"power","bits":114,"gear":0,"power":"off","trouble":"power-off","changed":[{"gear":0,"power":"off","state":"enabled","random":"123456","search":"FFFFFF","short":null}]}
{"line":10,"report":"refused 1 UnknownGear\n"}
{"line":11,"report":"gear 0 off enabled 123456 FFFFFF -\n"}
{"end":true,"stands":[],"frames":6,"bits":114,"gear":[{"gear":0,"power":"off","state":"enabled","random":"123456","search":"FFFFFF","short":null}],"tables":[]}

== a site has its story [story]
-- Two controllers and two gear, of which one is used. One controller sends a frame, the other one goes down.
# a site
site 2 0-3 4-7
draws 123456
used 1 9 0ABCDE
\e
go 0
*2 pump
down 1
{"story":1,"source":"script","controllers":2,"gear":[{"gear":0,"power":"on","state":"disabled","random":"FFFFFF","search":"FFFFFF","short":null},{"gear":1,"power":"on","state":"disabled","random":"0ABCDE","search":"FFFFFF","short":9}],"script":"# a site\nsite 2 0-3 4-7\ndraws 123456\nused 1 9 0ABCDE\n\ngo 0\npump\npump\ndown 1\n"}
{"line":6,"report":"0: put 3 A100\n"}
{"event":0,"kind":"acted","bits":0,"controller":0,"told":"start","order":"put","priority":3,"frame":"A100","command":"TERMINATE"}
{"line":7,"report":"0: sent A100 silence\n"}
{"event":1,"kind":"sent","bits":19,"controller":0,"frame":"A100","command":"TERMINATE","transaction":0,"place":0,"heard":"silence","answers":[],"changed":[]}
{"line":8,"report":"idle\n"}
{"line":9,"report":"ok\n"}
{"event":2,"kind":"down","bits":19,"controller":1,"trouble":"down"}
{"end":true,"stands":["at-work","down"],"frames":1,"bits":19,"gear":[{"gear":0,"power":"on","state":"disabled","random":"FFFFFF","search":"FFFFFF","short":null},{"gear":1,"power":"on","state":"disabled","random":"0ABCDE","search":"FFFFFF","short":9}],"tables":[{"controller":0,"entries":[]},{"controller":1,"entries":[]}]}

== each kind of event has its line [story]
-- Everything that may befall a site, but a commissioning.
site 3 0-0 1-3
draws 123456 123457 654321
arc 0 0280
go 0
pump
go 1
pump collision
lapse
go 0
pump destroyed 0,2
expire 0
off 1
on 1
quiet
foreign FE80
down 0
up 0
{"event":0,"kind":"offered","bits":0,"controller":0,"frame":"0280","command":"DAPC"}
{"event":1,"kind":"acted","bits":0,"controller":0,"told":"start","order":"put","priority":3,"frame":"A100","command":"TERMINATE"}
{"event":2,"kind":"sent","bits":19,"controller":0,"frame":"0280","command":"DAPC","transaction":0,"place":0,"heard":"silence","answers":[],"changed":[]}
{"event":3,"kind":"acted","bits":19,"controller":1,"told":"start","order":"put","priority":3,"frame":"A100","command":"TERMINATE"}
{"event":4,"kind":"collided","bits":19,"controller":0,"frame":"A100","command":"TERMINATE","other":1,"other_frame":"A100","other_command":"TERMINATE","trouble":"collided"}
{"event":5,"kind":"lapsed","bits":19,"trouble":"lapsed"}
{"event":6,"kind":"acted","bits":19,"controller":0,"told":"destroyed","order":"put","priority":3,"frame":"A100","command":"TERMINATE"}
{"event":7,"kind":"destroyed","bits":19,"controller":0,"frame":"A100","command":"TERMINATE","transaction":1,"place":0,"takers":[0,2],"trouble":"destroyed","changed":[]}
{"event":8,"kind":"expired","bits":19,"gear":0,"trouble":"expired","changed":[]}
{"event":9,"kind":"power","bits":19,"gear":1,"power":"off","trouble":"power-off","changed":[{"gear":1,"power":"off","state":"disabled","random":"FFFFFF","search":"FFFFFF","short":null}]}
{"event":10,"kind":"power","bits":19,"gear":1,"power":"on","changed":[{"gear":1,"power":"on","state":"disabled","random":"FFFFFF","search":"FFFFFF","short":null}]}
{"event":11,"kind":"quiet","bits":19}
{"event":12,"kind":"foreign","bits":19,"frame":"FE80","command":"DAPC"}
{"event":13,"kind":"down","bits":19,"controller":0,"trouble":"down"}
{"event":14,"kind":"up","bits":19,"controller":0,"kept":false}
~ "stands":["at-work","at-work"],"frames":3,"bits":19,
~ {"gear":2,"power":"on","state":"disabled","random":"FFFFFF","search":"FFFFFF","short":null}],"tables":[{"controller":0,"entries":[]},{"controller":1,"entries":[]}]}

== two gear are found and one is given the only address [story]
-- Records, what a controller is told of them, and what is heard of one gear and of two.
site 2 0-0
draws 123456 654321
run 500
~ "told":"heard FF","order":"commit","record":"reserve","short":0,"random":"123456"}
~ "told":"committed","order":"put","priority":3,"frame":"B112","command":"SEARCHADDRH 12"}
~ "order":"commit","record":"enrol","short":0,"random":"123456"}
~ "told":"heard silence","order":"done","end":"block-full"}
~ "heard":"FF","answers":[{"gear":0,"byte":"FF"}],"changed":[]}
~ "heard":"damaged","answers":[{"gear":0,"byte":"FF"},{"gear":1,"byte":"FF"}],"changed":[]}
~ "told":"heard damaged","order":"put"
~ "command":"PROGRAM SHORT ADDRESS 0","transaction":
~ "answers":[],"changed":[{"gear":0,"power":"on","state":"enabled","random":"123456","search":"123456","short":0}]}
~ {"end":true,"stands":["block-full"],"frames":
~ "tables":[{"controller":0,"entries":[{"short":0,"random":"123456"}]}]}

== a store fails [story]
site 1 0-3
draws 123456
run 110
fail 0
~ "told":"commit-failed","order":"halt","fault":"store"}
~ "stands":["halt-store"]

== a controller comes up with its record [story]
site 1 0-3
draws 123456
run 110
store 0
down 0
up 0
~ "kind":"up","bits":2258,"controller":0,"kept":true}

== a survey begins [story]
site 1 0-3
draws
survey 0
~ "told":"survey","order":"put","priority":3,"frame":"01C2","command":"QUERY RANDOM ADDRESS (H) 0"}

== a controller is told of a lapse [story]
site 1 0-3
draws 123456
go 0
pump
go 0
lapse
go 0
~ "kind":"lapsed","bits":19,"trouble":"lapsed"}
~ "told":"lapsed","order":"put","priority":3,

== a controller gives up [story]
site 1 0-3
draws 123456
go 0
pump destroyed -
go 0
pump destroyed -
go 0
pump destroyed -
go 0
pump destroyed -
go 0
pump destroyed -
go 0
pump destroyed -
go 0
pump destroyed -
go 0
pump destroyed -
go 0
~ "told":"destroyed","order":"done","end":"gave-up"}
~ "transaction":7,"place":0,"takers":[],"trouble":"destroyed","changed":[]}
~ "stands":["gave-up"],"frames":8,"bits":0,

== answers are lost and noise is heard [story]
-- An answer is lost that a gear gives; then one that none gives, which is no trouble; and noise.
site 1 0-3
draws 123456
run 16
go 0
pump lost
go 0
pump lost
go 0
pump noise
~ {"event":33,"kind":"sent","bits":345,"controller":0,"frame":"A900","command":"COMPARE","transaction":3,"place":3,"heard":"silence","answers":[{"gear":0,"byte":"FF"}],"trouble":"lost","changed":[]}
~ {"event":35,"kind":"sent","bits":364,"controller":0,"frame":"B15F","command":"SEARCHADDRH 5F","transaction":4,"place":0,"heard":"silence","answers":[],"changed":[]}
~ {"event":37,"kind":"sent","bits":394,"controller":0,"frame":"B3FF","command":"SEARCHADDRM FF","transaction":4,"place":1,"heard":"damaged","answers":[],"trouble":"noise","changed":[]}

== a pair is destroyed at one of two gear [story]
-- The second RANDOMISE of a pair is destroyed and reaches gear 0 alone, which draws; both draw when it is sent again;
-- the initialisation of gear 1 runs out.
site 2 0-3
draws 111111 222222 333333
run 4
go 0
pump destroyed 0
run 5
expire 1
~ "place":4,"takers":[0],"trouble":"destroyed","changed":[{"gear":0,"power":"on","state":"enabled","random":"111111","search":"FFFFFF","short":null}]}
~ "changed":[{"gear":0,"power":"on","state":"enabled","random":"222222","search":"FFFFFF","short":null},{"gear":1,"power":"on","state":"enabled","random":"333333","search":"FFFFFF","short":null}]}
~ "gear":1,"trouble":"expired","changed":[{"gear":1,"power":"on","state":"disabled",

== surveys count their transactions [story]
-- Each of two controllers asks 64 addresses three times, one by one: 384 transactions. Then each calls the roll.
site 1 0-3 4-7
draws 123456 234567
survey 0
survey 1
run 440
~ "controller":0,"frame":"A900","command":"COMPARE","transaction":384,"place":6,
~ "controller":1,"frame":"A900","command":"COMPARE","transaction":385,"place":6,

== a hunt goes on as another transaction [story]
-- The seventh frame of a hunt is behind; but SEARCHADDRH is put at priority 3, and so begins the next one.
site 1 0-3
draws 123456
survey 0
run 224
~ "frame":"B13F","command":"SEARCHADDRH 3F","transaction":196,"place":0,

== a commissioning ends [story]
-- No gear answers any more.
site 1 0-3
draws 123456
run 500
~ "stands":["all-found"]
~ "order":"done","end":"all-found"}

== commands have their names [story]
bench 1
draws
frame A100 ~ "frame":"A100","command":"TERMINATE",
frame A101 ~ "frame":"A101","command":"other",
frame A500 ~ "frame":"A500","command":"INITIALISE all",
frame A50B ~ "frame":"A50B","command":"INITIALISE 5",
frame A5FF ~ "frame":"A5FF","command":"INITIALISE no short address",
frame A700 ~ "frame":"A700","command":"RANDOMISE",
frame A900 ~ "frame":"A900","command":"COMPARE",
frame AB00 ~ "frame":"AB00","command":"WITHDRAW",
frame B10A ~ "frame":"B10A","command":"SEARCHADDRH 0A",
frame B3C0 ~ "frame":"B3C0","command":"SEARCHADDRM C0",
frame B5FF ~ "frame":"B5FF","command":"SEARCHADDRL FF",
frame B70B ~ "frame":"B70B","command":"PROGRAM SHORT ADDRESS 5",
frame B7FF ~ "frame":"B7FF","command":"PROGRAM SHORT ADDRESS none",
frame B97F ~ "frame":"B97F","command":"VERIFY SHORT ADDRESS 63",
frame BB00 ~ "frame":"BB00","command":"QUERY SHORT ADDRESS",
frame 01C2 ~ "frame":"01C2","command":"QUERY RANDOM ADDRESS (H) 0",
frame 15C3 ~ "frame":"15C3","command":"QUERY RANDOM ADDRESS (M) 10",
frame 7FC4 ~ "frame":"7FC4","command":"QUERY RANDOM ADDRESS (L) 63",
frame FE00 ~ "frame":"FE00","command":"DAPC",
frame FF05 ~ "frame":"FF05","command":"other",

== frames have their places [story]
bench 1
draws 123456
-- A hunt: its low byte is the second frame. It has at most eight frames.
frame B1FF ~ "transaction":0,"place":0,"heard"
frame B5FE ~ "transaction":0,"place":1,"heard"
frame B3FF ~ "transaction":0,"place":2,"heard"
frame A900 ~ "transaction":0,"place":3,"heard"
frame B17F ~ "transaction":0,"place":4,"heard"
frame A900 ~ "transaction":0,"place":5,"heard"
frame B13F ~ "transaction":0,"place":6,"heard"
frame A900 ~ "transaction":0,"place":7,"heard"
frame B11F ~ "transaction":1,"place":0,"heard"
-- A probe, and a gear that is passed over: the next high byte begins another transaction.
frame B3FF ~ "transaction":1,"place":1,"heard"
frame B5FF ~ "transaction":1,"place":2,"heard"
frame A900 ~ "transaction":1,"place":3,"heard"
frame B11F ~ "transaction":2,"place":0,"heard"
frame B3FF ~ "transaction":2,"place":1,"heard"
frame B5FF ~ "transaction":2,"place":2,"heard"
frame AB00 ~ "transaction":2,"place":3,"heard"
frame BB00 ~ "transaction":2,"place":4,"heard"
-- A roll call: the search address follows the two INITIALISE, and one more frame may follow COMPARE.
frame A100 ~ "transaction":3,"place":0,"heard"
frame A5FF ~ "transaction":3,"place":1,"heard"
frame A5FF ~ "transaction":3,"place":2,"heard"
frame B1FF ~ "transaction":3,"place":3,"heard"
frame B5FF ~ "transaction":3,"place":4,"heard"
frame B3FF ~ "transaction":3,"place":5,"heard"
frame A900 ~ "transaction":3,"place":6,"heard"
frame B1FF ~ "transaction":3,"place":7,"heard"
frame B1FF ~ "transaction":4,"place":0,"heard"
-- An opening.
frame A100 ~ "transaction":5,"place":0,"heard"
frame A5FF ~ "transaction":5,"place":1,"heard"
frame A5FF ~ "transaction":5,"place":2,"heard"
frame A700 ~ "transaction":5,"place":3,"heard"
frame A700 ~ "transaction":5,"place":4,"heard"
frame B1FF ~ "transaction":6,"place":0,"heard"
-- The three questions of a random address.
frame 01C2 ~ "transaction":7,"place":0,"heard"
frame 01C3 ~ "transaction":7,"place":1,"heard"
frame 01C4 ~ "transaction":7,"place":2,"heard"
frame 01C2 ~ "transaction":8,"place":0,"heard"
-- What begins no transaction goes on, also if no script has it: WITHDRAW behind direct arc power, and INITIALISE of all
-- gear, behind which a high byte begins one.
frame FE80 ~ "transaction":9,"place":0,"heard"
frame AB00 ~ "transaction":9,"place":1,"heard"
frame A100 ~ "transaction":10,"place":0,"heard"
frame A500 ~ "transaction":10,"place":1,"heard"
frame A500 ~ "transaction":10,"place":2,"heard"
frame B1FF ~ "transaction":11,"place":0,"heard"
