# Plots means with their intervals over an argument that was swept, of a summary.csv of ./runs: the rows of the column that `name`
# names, whose place is `at` and before which the argument is the first; and a curve of the theory, `theory(x)`.
# gnuplot -e "data='FILE'; picture='FILE.svg'; name='exit'; at=3; theory(x)=x/(2*(1-x))" tools/plots/means.gp
set terminal svg size 640,320 font "sans-serif,12" background "white"
set output picture
set datafile separator ","
set xlabel "load"
set ylabel "mean wait"
set yrange [0:*]
set grid
set key left top
set samples 200
chosen(text, value) = text eq name ? value : NaN
plot [0.05:0.95] theory(x) title "theory" lw 1.5 lc rgb "#c44e00", \
     data using 1:(chosen(strcol(at), column(at + 2))):(column(at + 6)) with yerrorbars title "mean with its interval of 95 %" \
     pt 7 ps 0.5 lc rgb "#1f5fa8"
