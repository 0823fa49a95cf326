# Plots what each machine does with its time, of what `tools/plots/series use` makes.
# gnuplot -e "data='FILE'; picture='FILE.svg'" tools/plots/use.gp
set terminal svg size 640,320 font "sans-serif,12" background "white"
set output picture
set style data histograms
set style histogram rowstacked
set style fill solid 0.9 border -1
set boxwidth 0.6
set ylabel "share of the time"
set yrange [0:1]
set xrange [-0.75:*]
set key outside right
plot data using 2:xtic(1) title "works" lc rgb "#1f5fa8", '' using 3 title "is blocked" lc rgb "#c44e00", \
     '' using 4 title "waits" lc rgb "#d9d9d9"
