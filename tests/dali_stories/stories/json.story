-- What `--json` writes: a line for each `show`, and nothing for all other lines. What is written comes before a fault.

== a bench is shown [json]
bench 2
draws 123456
show
off 1
\e
# a comment
*2 frame A500
*2 frame A700
show
{"line":3,"gear":[{"gear":0,"power":"on","state":"disabled","random":"FFFFFF","search":"FFFFFF","short":null},{"gear":1,"power":"on","state":"disabled","random":"FFFFFF","search":"FFFFFF","short":null}],"tables":[]}
{"line":11,"gear":[{"gear":0,"power":"on","state":"enabled","random":"123456","search":"FFFFFF","short":null},{"gear":1,"power":"off","state":"disabled","random":"FFFFFF","search":"FFFFFF","short":null}],"tables":[]}

== a site is shown [json]
site 2 0-3 4-7
draws 100000 200000
used 0 9 0ABCDE
down 1
survey 0
run 2000
show
{"line":7,"gear":[{"gear":0,"power":"on","state":"disabled","random":"0ABCDE","search":"FFFFFF","short":9},{"gear":1,"power":"on","state":"disabled","random":"100000","search":"FFFFFE","short":0}],"tables":[{"controller":0,"entries":[{"short":9,"random":"0ABCDE"},{"short":0,"random":"100000"}]},{"controller":1,"entries":[]}]}

== what stands before a bad line is written [json]
bench 1
draws
show
shwo\nshow\e ! line 4: bad line: `shwo` is no line of a bench; did you mean `show`?
{"line":3,"gear":[{"gear":0,"power":"on","state":"disabled","random":"FFFFFF","search":"FFFFFF","short":null}],"tables":[]}

== a script needs its second line [json]
bench 1\n\e ! line 2: bad line: the second line is missing, which is `draws RRRRRR ..`

== the same as texts
bench 1
draws
show > gear 0 on disabled FFFFFF FFFFFF -
shwo\nshow\e ! line 4: bad line: `shwo` is no line of a bench; did you mean `show`?
