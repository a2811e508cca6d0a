# A turbocharged engine around the unit (examples/own_engine/turbo.py). Level 1 follows the pedal; when it is let go the charge is
# still high, and level 2 cuts. Then level 1 asks for full throttle while path 1 is stuck: level 3 cuts.
./egasim partner examples/own_engine/turbo.py examples/own_engine/turbo.toml sound >turbo.csv
cut -d, -f1,2,5-8,11,15,19,22-25 turbo.csv | sed -n '1,3p;51,59p;82,83p'
./egasim draw <turbo.csv | sed -n 's/<desc[^>]*>\(.*\)<.desc>/\1/p'
./egasim partner examples/own_engine/turbo.py examples/own_engine/turbo.toml runaway-path1 | cut -d, -f1,2,5-8,11,15,19,22-25 | sed -n '29p;61,63p'

# The engine of examples/own_engine/partner.py, in C too where there is a compiler; and partners that end, die, or answer nothing.
./egasim partner examples/own_engine/partner.py examples/first_run/levels.toml full >python.csv
if command -v cc >/dev/null && cc -O2 -o partner examples/own_engine/partner.c -lm; then ./egasim partner ./partner examples/first_run/levels.toml full >c.csv; else cp python.csv c.csv; fi
cmp python.csv c.csv && wc -l <c.csv
for partner in true false 'echo 0,800,0,0,0,0,40,40,0' 'echo 0,800,0,0,0,0,40,40,101' 'echo x'; do
  ./egasim partner "$partner" examples/first_run/levels.toml full | cut -d, -f1-7,22-25 | sed 1d
  echo "$partner: $(./egasim partner "$partner" examples/first_run/levels.toml full 2>&1 >/dev/null; echo "status $?")"
done 2>/dev/null
rm -f turbo.csv python.csv c.csv partner
