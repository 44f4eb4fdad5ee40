# Makes an installed document of one of the source: there, all of them lie in one folder.
s#\](\(\.\./\)\{0,1\}\(docs\|packaging/prometheus\)/#](#g
s#\bdocs/\([A-Z-]*\.md\)#\1#g
s#\bpackaging/prometheus/\([a-z]*\.\)#\1#g
