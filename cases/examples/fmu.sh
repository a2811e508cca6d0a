# The FMU that examples/own_engine/make_fmu.py builds is the engine of examples/own_engine/turbo.py: its coupled runs have the same records. Then
# what is told of FMUs, and of files that join them, that can't be taken. Without a compiler there is nothing to try.
command -v cc >/dev/null || { echo 'there is no compiler cc' >skipped; exec cat cases/examples/expected/fmu.out; }
examples/own_engine/make_fmu.py engine.fmu && ./egasim fmu --variables engine.fmu
for run in sound runaway runaway-path1; do
  ./egasim partner './egasim fmu examples/own_engine/engine_fmu.toml' examples/own_engine/turbo.toml "$run" >fmu.csv
  ./egasim partner examples/own_engine/turbo.py examples/own_engine/turbo.toml "$run" | cmp - fmu.csv && wc -l <fmu.csv
done
joined() {
  sed "$1" examples/own_engine/engine_fmu.toml >my.toml
  ./egasim partner './egasim fmu my.toml' examples/own_engine/turbo.toml sound 2>&1 >/dev/null | head -n 1
}
joined s/engine.fmu/gone.fmu/
joined 's/"N.m"/"Nm"/'
joined 's/"load"/"loud"/'
joined /^throttle/d
joined 's/"N.m", factor = 10/&, offset = -50/'
joined 's/"N.m", factor = 10/&, offset = -50, clip = true/'
joined 's/factor = 10 }$/factor = 1 }/'
joined 's/unit = "N.m", factor = 10/factor = 9/'
joined 's/0.25/nan/'
joined 's/"torque", unit = "N.m"/"charge_time"/'
joined 's/= 0.01/= "10 m"/'
CC=gone examples/own_engine/make_fmu.py other.fmu 2>&1 || echo "status $?"
rm -f engine.fmu fmu.csv my.toml
