"""Stories that were written by hand, with what they say in words: for checks of what reads and draws stories."""

# A story of a site with an event of each kind, a line of the script and a finding.
STORY = r"""
{"story":1,"source":"script","controllers":2,"gear":[{"gear":0,"power":"on","state":"disabled","random":"FFFFFF","search":"FFFFFF","short":null},{"gear":1,"power":"on","state":"disabled","random":"FFFFFF","search":"FFFFFF","short":null}],"script":"site 2 0-3 4-7\ndraws 123456 234567\n# by hand\ngo 0\npump\npump destroyed 1\nquiet\n"}
{"line":4,"report":"0: put 3 A5FF\n"}
{"event":0,"kind":"acted","bits":0,"controller":0,"told":"start","order":"put","priority":3,"frame":"A5FF","command":"INITIALISE no short address"}
{"event":1,"kind":"offered","bits":0,"controller":1,"frame":"0AFE","command":"DAPC"}
{"line":5,"report":""}
{"event":2,"kind":"sent","bits":19,"controller":0,"frame":"A5FF","command":"INITIALISE no short address","transaction":0,"place":0,"heard":"silence","answers":[],"changed":[]}
{"event":3,"kind":"sent","bits":49,"controller":0,"frame":"A900","command":"COMPARE","transaction":0,"place":1,"heard":"FF","answers":[{"gear":1,"byte":"FF"}],"changed":[]}
{"event":4,"kind":"sent","bits":79,"controller":0,"frame":"A900","command":"COMPARE","transaction":1,"place":0,"heard":"damaged","answers":[{"gear":0,"byte":"FF"},{"gear":1,"byte":"FF"}],"changed":[]}
{"event":5,"kind":"sent","bits":98,"controller":0,"frame":"A900","command":"COMPARE","transaction":1,"place":1,"heard":"silence","answers":[{"gear":0,"byte":"FF"}],"trouble":"lost","changed":[]}
{"event":6,"kind":"sent","bits":128,"controller":0,"frame":"B703","command":"PROGRAM SHORT ADDRESS 1","transaction":1,"place":2,"heard":"damaged","answers":[],"trouble":"noise","changed":[{"gear":0,"power":"on","state":"enabled","random":"123456","search":"FFFFFF","short":1}]}
{"line":6,"report":"0: destroyed A700\n"}
{"event":7,"kind":"destroyed","bits":128,"controller":0,"frame":"A700","command":"RANDOMISE","transaction":2,"place":0,"takers":[1],"trouble":"destroyed","changed":[]}
{"event":8,"kind":"destroyed","bits":128,"controller":0,"frame":"A700","command":"RANDOMISE","transaction":2,"place":1,"takers":[],"trouble":"destroyed","changed":[]}
{"event":9,"kind":"collided","bits":128,"controller":0,"frame":"A100","command":"TERMINATE","other":1,"other_frame":"B1FF","other_command":"SEARCHADDRH FF","trouble":"collided"}
{"event":10,"kind":"foreign","bits":128,"frame":"0100","command":"other"}
{"event":11,"kind":"lapsed","bits":128,"trouble":"lapsed"}
{"line":7,"report":"ok\n"}
{"event":12,"kind":"quiet","bits":128}
{"event":13,"kind":"power","bits":128,"gear":1,"power":"off","trouble":"power-off","changed":[{"gear":1,"power":"off","state":"disabled","random":"FFFFFF","search":"FFFFFF","short":null}]}
{"event":14,"kind":"power","bits":128,"gear":1,"power":"on","changed":[{"gear":1,"power":"on","state":"disabled","random":"FFFFFF","search":"FFFFFF","short":null}]}
{"event":15,"kind":"expired","bits":128,"gear":0,"trouble":"expired","changed":[{"gear":0,"power":"on","state":"disabled","random":"123456","search":"FFFFFF","short":1}]}
{"finding":"half-pair","event":15,"text":"a text"}
{"event":16,"kind":"acted","bits":128,"controller":0,"told":"heard FF","order":"commit","record":"reserve","short":1,"random":"123456"}
{"event":17,"kind":"down","bits":128,"controller":0,"trouble":"down"}
{"event":18,"kind":"up","bits":128,"controller":0,"kept":true}
{"event":19,"kind":"acted","bits":128,"controller":0,"told":"heard damaged","order":"done","end":"gave-up"}
{"event":20,"kind":"acted","bits":128,"controller":1,"told":"commit-failed","order":"halt","fault":"store"}
{"end":true,"stands":["gave-up","halt-store"],"frames":8,"bits":128,"gear":[{"gear":0,"power":"on","state":"disabled","random":"123456","search":"FFFFFF","short":1},{"gear":1,"power":"on","state":"disabled","random":"FFFFFF","search":"FFFFFF","short":null}],"tables":[{"controller":0,"entries":[{"short":1,"random":"123456"}]},{"controller":1,"entries":[]}]}
"""[1:]
# What its events and its finding say, in their order.
WORDS = """
controller 0 is to start, and asks at priority 3 to send INITIALISE no short address (A5FF)
controller 1 asks at priority 2 to send DAPC (0AFE)
controller 0 sent INITIALISE no short address (A5FF); silence
controller 0 sent COMPARE (A900); heard FF; answers: gear 1 FF
controller 0 sent COMPARE (A900); heard damaged; answers: gear 0 FF, gear 1 FF
controller 0 sent COMPARE (A900); silence; answers: gear 0 FF; the answer was lost
controller 0 sent PROGRAM SHORT ADDRESS 1 (B703); heard damaged; the answer was damaged; now gear 0 (on, enabled, random address 123456, short address 1)
RANDOMISE (A700) of controller 0 was destroyed; taken by gear 1
RANDOMISE (A700) of controller 0 was destroyed; taken by no gear
TERMINATE (A100) of controller 0 and SEARCHADDRH FF (B1FF) of controller 1 collided
another device sent other (0100)
the bus lapsed
the bus was quiet: half pairs are forgotten
the power of gear 1 is off; now gear 1 (off, disabled, random address FFFFFF, short address none)
the power of gear 1 is on; now gear 1 (on, disabled, random address FFFFFF, short address none)
the initialisation of gear 0 ran out; now gear 0 (on, disabled, random address 123456, short address 1)
finding half-pair: a text
controller 0 heard FF, and commits: reserve short address 1 for 123456
controller 0 went down
controller 0 came up, with the record that was outstanding
controller 0 heard a damaged answer, and is done: gave-up
controller 1 was told that its commit failed, and halts: store
""".strip().splitlines()
# What a receiver reads of its bus.
FRAMES = [
    "A5FF", "A900", "FF", "A900", "damaged", "A900", "B703", "damaged", "damaged", "damaged", "damaged", "0100",
]
# What was heard of a bus, as the log of a capture, and what is found in it; and what its story says in words.
ITEMS = """
100000 A900
104000 < damaged
200000 A900
204000 < FF
250000 < FF
300000 A500
320000 device
330000 < damaged
340000 < 0B
400000 0AFE
""".lstrip()
FOUND = {
    "findings": [{"at": 204000, "kind": "unasked-answer"}, {"at": 320000, "kind": "settling-time"}, {"at": 300000, "kind": "half-pair"}],
    "other_answer": 100000,
    "gear": [{"short": 0, "random": "123456", "known": "verified"}, {"short": 1, "random": None, "known": "answered"}, {"short": 2, "random": None, "known": "unknown"}],
}
CAPTURE = """
sent COMPARE (A900); heard damaged
finding other-answer
sent COMPARE (A900); heard FF
finding unasked-answer
sent INITIALISE all (A500); silence
finding half-pair
another device sent a frame of 24 bits
finding settling-time
something damaged was destroyed
sent DAPC (0AFE); silence
""".strip().splitlines()
