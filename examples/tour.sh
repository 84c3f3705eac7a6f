# The command lines of a tour, one a line, from the top of the repository. tests/gallery runs them.
bin/pop bundle < examples/majority/majority.pop | bin/pop check
bin/pop explain examples/majority/majority.pop | tail -n 3
bin/pop explain examples/rejected/wrong-trap.json | grep '>>>'
bin/pop run examples/majority/majority.pop x=30 y=10 --seed 3 | tail -n 1
bin/pop play examples/majority/net.json x=2 y=1 0,2 1,2
bin/pop eval 'x >= y' x=2 y=3
bin/pop check examples/majority/net.json 2>&1 | head -n 2
bin/pop demo 21
printf 'vars x y\nx - y < 3 || x + y = 1 mod 2\n' | bin/pop compile | bin/pop check
(printf 'vars x y\nx - y < 3 || x + y = 1 mod 2\n' | bin/pop compile; echo 'crowd x=12 y=7') | bin/pop run | tail -n 1
printf 'vars x\nx >= 1024\n' | bin/pop compile
printf 'vars x\nx >= 1024\n' | bin/pop compile --flocks | bin/pop check
bin/pop check < examples/majority/bundle.json
cat examples/majority/bundle.json examples/majority/crowd.txt | bin/pop run | tail -n 1
bin/pop play < examples/majority/play.txt
cat examples/majority/bundle.json examples/majority/crowd.txt | bin/pop settle | tail -n 3
bin/pop check < examples/flock/bundle.json
(cat examples/flock/bundle.json; echo 'crowd x=2 y=58') | bin/pop run | tail -n 1
bin/pop check < examples/remainder/bundle.json
(cat examples/remainder/bundle.json; echo 'crowd x=20 y=10') | bin/pop run --seed 7 | tail -n 4
printf 'vars x y\nx + 2*y = 1 mod 3\ncrowd x=20 y=10\n' | bin/pop eval
bin/pop check < examples/and/bundle.json
(cat examples/and/bundle.json; echo 'crowd x=20 y=10') | bin/pop run --workers 4 --shards 2 | tail -n 1
bin/pop check < examples/helper/bundle.json
bin/pop check < examples/rejected/wrong-trap.json
(cat examples/majority/bundle.json; echo 'crowd x=120 y=80') | bin/pop run --turns 100 | tail -n 1
bin/pop replay < examples/replays/held.txt
bin/pop replay < examples/replays/changed-mark.txt
cat examples/majority/bundle.json examples/majority/crowd.txt | bin/pop run --workers 4 | bin/pop replay | cut -d ' ' -f 1
cat examples/majority/bundle.json examples/majority/crowd.txt | bin/pop watch --workers 4 | bin/pop replay --watched | cut -d ' ' -f 1
bin/pop simulate examples/tellers/tellers.pop x=520 y=480 --seed 1 | tail -n 4
