# What the documents say of forms and limits, one command a line, from the top of the repository. tests/gallery runs them.
# a net where a bundle is due; a bundle of two lines; a missing member
bin/pop check < examples/epidemic/net.json
printf '{\n}\n' | bin/pop check
printf '{"net":{"format":1,"vars":["x"]}}\n' | bin/pop check
# a carriage return is white space in JSON, and breaks every other form
printf '%s\r\n' "$(cat examples/epidemic/bundle.json)" | bin/pop check
printf 'vars x\r\nx < 1\ncrowd x=1\n' | bin/pop eval
# a modulus below 2; a bad word of a crowd line, counted from 0
printf 'vars x\nx = 1 mod 1\ncrowd x=1\n' | bin/pop eval
printf 'vars x\nx < 1\ncrowd x=1 z=2\n' | bin/pop eval
# a run looks for its end before each round: terminal before the first, and no turn at all
(cat examples/epidemic/bundle.json; echo 'crowd x=2') | bin/pop run | tail -n 4
(cat examples/epidemic/bundle.json; echo 'crowd x=1 y=1') | bin/pop run --turns 0 | tail -n 4
# turns are counted for each worker
(cat examples/majority/bundle.json; echo 'crowd x=120 y=80') | bin/pop run --workers 2 --turns 3 | tail -n +4 | grep -c '^[01] '
# the tree of a predicate: `x > 0` is that of `x >= 1`
sed 's/"pred":"x >= 1"/"pred":"x > 0"/' examples/epidemic/bundle.json | bin/pop check
# at most 4,096 nodes above each other: the last of so many has 4,095 above it
sed "s/\"false\":\[\[\"open\",3\],/&$(yes '["twin",0],' | head -n 4094 | tr -d '\n')/" examples/some-agent/bundle.json | bin/pop check
sed "s/\"false\":\[\[\"open\",3\],/&$(yes '["twin",0],' | head -n 4095 | tr -d '\n')/" examples/some-agent/bundle.json | bin/pop check
# at most 65,536 facts: the second case of each trap adds 59 to the 18 base facts
awk '{ for (i = 0; i < 1111; i++) c = c "[\"trap\",[0,1,2,3,4,5,6,7,8,9,10,11,12,13,14]],[\"lin\",[[" 18 + 59 * i ",1]]],"; sub(/"true":\[/, "&" c); print }' examples/threshold/bundle.json | bin/pop check
# words that are no UTF-8
bin/pop "$(printf '\377')"
# a bundle over many lines is made one line
jq . examples/some-agent/bundle.json | jq -c . | bin/pop check
# journals: a worker that is not there, a line that is missing, and no journal at all
sed '5s/^0/1/' examples/replays/held.txt | bin/pop replay
head -n 6 examples/replays/held.txt | bin/pop replay
head -n 2 examples/replays/held.txt | bin/pop replay
# a certified net with two moves for the same states: its meetings go round forever, the moves of its proof lead to the end
(cat examples/accepted/two-moves.json; echo 'crowd x=1 y=1') | bin/pop run | tail -n 1
(cat examples/accepted/two-moves.json; echo 'crowd x=1 y=1') | bin/pop settle | tail -n 1
