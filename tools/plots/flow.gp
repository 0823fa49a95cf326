# Plots a histogram of flow times, of what `tools/plots/series flow` makes; a bar is `wide` wide.
# gnuplot -e "data='FILE'; picture='FILE.svg'; wide=0.5" tools/plots/flow.gp
set terminal svg size 640,320 font "sans-serif,12" background "white"
set output picture
set xlabel "flow time"
set ylabel "lots"
set yrange [0:*]
set grid y
set boxwidth 0.9 * wide
set style fill solid 0.9
unset key
plot data using (wide * (floor($1 / wide) + 0.5)):(1) smooth frequency with boxes lc rgb "#1f5fa8"
