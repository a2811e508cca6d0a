# A report: its verdict, numbers and pictures as they stand in the page. What changes with the documents, the program or
# the day is left out, and counted. Then each point of verdicts, names of files that hold marks of HTML, and what is refused.
work=$(mktemp -d) && trap 'rm -rf "$work"' EXIT && ln -s "$PWD/egasim" "$PWD/examples" "$PWD/cases" "$PWD/tools" "$PWD/dist" "$work" && cd "$work" || exit
./egasim report examples/first_run/sweep.toml --cal examples/calibration/strict.toml --tolerant 20 --falls 0 --title 'Late & <cut>' --project P7 --author 'A. "B"' >page.html
sed '/<style>/,/<\/style>/d; /class="warning own"/d; /^<li>Date: <time>[0-9-]* [0-9:]* UTC<\/time>/d; /^<li>Version: egasim /d
  /aria-label="The columns"/,/<\/table>/d; /id="limits"/,/<\/section>/s/<\/td><td>.*/<\/td>/; /<section id="assumptions">/,$d' page.html

is_there() { [ "$(grep -c "$1" page.html)" -eq "$(grep -c "$2" "tools/../docs/$3")" ] && echo "each $4 is there"; }
is_there '<li id="A[0-9]*">' '^- \*\*A[0-9]*\. ' SAFETY.md assumption
# Of each claim there is a row, or its number stands in the line on those that have none.
folded() { sed -n 's/.*Not shown here: //p' page.html | grep -oE '[0-9]+( to [0-9]+)?' | while read -r first _ last; do seq "$first" "${last:-$first}"; done; }
{ folded && grep -o '<th scope="row">[0-9]*\. ' page.html | grep -o '[0-9]*'; } | sort -n >told
grep -o '^| [0-9]*\. ' tools/../docs/PROVED.md | grep -o '[0-9]*' | sort -n | cmp - told && echo "each claim is there, $(folded | wc -l) of them in a line"
modules() { (cd tools/egasim_tools/report && sed -n 's/^from \(egasim_tools[a-z_.]*\) import.*/tools.\1/p' ../../report report_tool.py sections.py asking.py program_results.py verdicts.py html_parts.py) | sort -u | sed 's|[.]|/|g; s|$|.py|'; }
for file in tools/../docs/SAFETY.md tools/../docs/EVIDENCE.md tools/../docs/PROVED.md tools/../docs/FORMATS.md \
  tools/report $(modules) tools/report_files/page.css examples/calibration/strict.toml examples/first_run/sweep.toml examples/first_run/late.csv examples/level_1/late.hex; do
  grep -c "<code>$(sha256sum <"$file" | sed 's/ .*//')</code>" page.html
done
grep -c "<code>$(./egasim table --cal examples/calibration/strict.toml examples/first_run/sweep.toml | sha256sum | sed 's/ .*//')</code>" page.html

# What the verdict says of time: a tick and the fall are taken off. With D 5 the bound for lapses is that of listed faults;
# with D 12, two more than the period, it is another, also by weights for which `lapse` is none. With a ramp there is none,
# unless N is 1.
verdict() { ./egasim report "$@" | sed -n '/"verdict"/,/<\/ul>/{s/<[^>]*>//g;/./p}'; }
time_said() { echo "-- $*" && verdict examples/first_run/levels.toml "$@" | grep 'an excess lasts\|No lapse\|for ever'; }
sed '/^.torque/,/^.pairs/s/^limit = .*/limit = 12/' examples/calibration/reference.toml >slow.toml
sed '/^.answers/,/^.question/{s/^up = .*/up = 1/; s/^down = .*/down = 3/; s/^limit = .*/limit = 3/}' slow.toml >light.toml
sed '/^.answers/,/^.question/s/^limit = .*/limit = 3/' examples/calibration/ramp.toml >once.toml
time_said --tolerant 39
time_said --tolerant 40 --falls 1
time_said --tolerant 40 --falls 2
time_said --tolerant 54 --falls 0 --cal slow.toml
time_said --tolerant 65 --falls 0 --cal light.toml
time_said --tolerant 66 --falls 0 --cal once.toml
time_said --tolerant 85 --falls 0 --cal examples/calibration/ramp.toml
time_said --tolerant 86 --falls 0 --cal examples/calibration/ramp.toml --without-lapses
time_said --tolerant 39 --falls 0 --cal examples/calibration/ramp.toml --without-held-torque --without-lapses --tick 10ms
sed 's/^fall = .*/fall = 0/' examples/calibration/ramp.toml >never.toml
time_said --tolerant 120 --falls 0 --cal never.toml --without-held-torque --without-lapses
sed 2,1184d examples/measurement/measured.csv >begun.csv
sed '/^.torque/,/^.pairs/s/^limit = .*/limit = 2/' examples/calibration/ramp.toml >ramp.toml
./egasim report examples/first_run/levels.toml --cal ramp.toml --recording begun.csv | grep '<p>begun'

# Sound drives, which are declared so by a word or a comment; their room; missed ticks; no excess; questions; evidence.
points() { echo "-- $*" && verdict "$@" | grep -v 'an excess lasts\|questions are blind' | cut -d, -f1-4; }
points examples/first_run/diesel.toml --sound diesel --sound gasoline --room 10
{ echo '# sound: diesel' && cat examples/first_run/diesel.toml; } >sound.toml
sed '/^.torque/,/^.pairs/s/^limit = .*/limit = 1/; /^.answers/,/^.question/s/^limit = .*/limit = 3/' examples/calibration/reference.toml >one.toml
points sound.toml --cal one.toml
sed '/^.answers/,/^.question/s/^limit = .*/limit = 6/; s/^threshold = .*/threshold = 3000/' examples/calibration/reference.toml >two.toml
./egasim questions two.toml >answered
points sound.toml --cal two.toml
{ cat sound.toml && ./egasim study faults examples/first_run/sweep.toml late bus,halt 0,5; } >faults.toml
points faults.toml --room 81
# All fits, by questions that exercise everything. The sound drive is swept where that is asked.
cp examples/calibration/reference.toml full.toml && ./egasim questions --fill full.toml >answered
./egasim study faults examples/first_run/sweep.toml late path1-closed 5 >>sound.toml
for words in '' --sweep-sound; do
  ./egasim report sound.toml --cal full.toml --tolerant 39 --falls 0 --room 80 $words >page.html
  sed -n '/"verdict"/,/<\/ul>/{s/<[^>]*>//g;/./p}; /^<h3>.*every.*ticks\?</p; /^<p>Not swept/p' page.html
done

# Sound drives that don't show whether they are cut; a class that switches the stages off itself, and an onset that may show
# a reaction; pairs that find nothing, or too late; the room of a recording.
trace() { echo pedal,speed,raise,reset && for reset; do echo "0,800,0,$reset"; done; }
run() { printf '[[run]]\nname = "%s"\ntrace = "%s"\nimage = "examples/level_1/%s.hex"\n%s\n' "$@"; }
trace 0 0 0 0 0 0 0 >short.csv && trace 0 0 0 0 0 0 1 0 >reset.csv && trace 0 >one.csv && trace $(printf '0 %.0s' $(seq 60)) >whole.csv
{ run short short.csv full && run reset reset.csv full && run one one.csv follow && run zeros whole.csv full 'slices = [[0, 0, 0, 0, 0, 0, 0, 0, 0]]'
  run last whole.csv idle 'faults = [{ class = "lapse", onset = 50, after = [9] }]'
  run opens whole.csv full 'faults = [{ class = "path-open", onset = 0, path = 1 }]'; } >little.toml
sounds='--sound short --sound reset --sound one --sound zeros --sound last'
{ run stuck whole.csv full 'faults = [{ class = "path1-closed", onset = 0 }]' && run late whole.csv full 'faults = [{ class = "flip", onset = 20, word = 3, mask = 1 }]'; } >flips.toml
cat little.toml flips.toml >all.toml
{ run at whole.csv full 'faults = [{ class = "flip", onset = 9, word = 3, mask = 1 }]' && run sound whole.csv idle; } >>flips.toml
said() { verdict "$@" --tolerant 39 --falls 0 --room 21 | grep "evidence\|at least one\|don't show\|another\|A pair\|Pairs\|Room"; }
said little.toml --cal full.toml $sounds
said all.toml --cal full.toml
said flips.toml --cal full.toml --sound sound --recording examples/measurement/measured.csv
for limits in 's/^limit = .*/limit = 77/' 's/^\(pedal\|speed\) = .*/\1 = 10000/'; do
  sed "/^.pairs/,/^.plant/{$limits}" full.toml >pairs.toml && ./egasim questions pairs.toml >answered
  said little.toml --cal pairs.toml
done

# How long it takes until faults are found, also after a reset, beside what `coverage` says of them.
{ ./egasim study faults examples/first_run/sweep.toml late halt,skip,timing,bus,script 3 && ./egasim study faults examples/power_cycles/cycles.toml starts flip,halt,path1-closed 50; } >found.toml
./egasim report found.toml --tick 10ms >page.html
sed -n '/<title>How long/,/<desc/s/<[^>]*>//gp; /<caption>Runs by/,/<\/tbody>/s/<[^>]*>/ /gp' page.html

# A program that says a reaction above R: that is against what is proved, and no evidence. A script, which the tools
# don't take for a program, stands in for it here.
./egasim study faults examples/first_run/sweep.toml late path1-closed 0 >one.toml
printf '#!/bin/sh\n"%s/egasim" "$@" | sed "/^path1-closed-0/s/,[0-9]*,1,19,/,20,1,19,/"\n' "$PWD" >slower && chmod +x slower
cat >by_slower.py <<'END'
import os, runpy, egasim_tools.base.program
egasim_tools.base.program.program = lambda: os.path.abspath("slower")
runpy.run_path("tools/report", run_name="__main__")
END
PYTHONPATH=tools python3 -B by_slower.py --cal examples/calibration/strict.toml one.toml | sed -n '/Against\|without evidence\|above its bound/s/<[^>]*>/ /gp'

cp examples/first_run/idle.csv '<script>"&.csv'
printf '[[run]]\nname = "odd"\ntrace = "<script>\\"&.csv"\nimage = "examples/level_1/idle.hex"\n' >'odd<b>.toml'
./egasim report 'odd<b>.toml' >page.html
grep -c '<script\|<b>' page.html
grep -o '<h1>.*\|<p>Drive.*' page.html
sed '/^\[\[run/d' 'odd<b>.toml' >none.toml
for words in '' none.toml 'examples/first_run/levels.toml --tolerant 1.5' 'examples/first_run/levels.toml --room x' 'examples/first_run/levels.toml --cal' \
  'examples/first_run/levels.toml --sound' 'examples/first_run/levels.toml --sound nobody' 'examples/first_run/levels.toml --sound flipped' \
  'examples/first_run/levels.toml --cal gone.toml' 'examples/first_run/levels.toml --fall 1'; do
  ./egasim report $words 2>&1 | head -n 1
done
