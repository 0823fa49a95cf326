# Plots how many jobs are in the system over time, of what `tools/plots/series in-system` makes.
# gnuplot -e "data='FILE'; picture='FILE.svg'" tools/plots/in-system.gp
set terminal svg size 640,320 font "sans-serif,12" background "white"
set output picture
set xlabel "time"
set ylabel "lots in the factory"
stats data using 2 nooutput
set yrange [0:STATS_max + 0.5]
set ytics 1
set grid y
unset key
plot data using 1:2 with steps lw 1.5 lc rgb "#1f5fa8"
