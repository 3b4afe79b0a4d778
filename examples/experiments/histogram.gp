# Passes and squashed turns of the histogram against units: gnuplot -c histogram.gp TABLE PICTURE
set terminal svg size 720,640 font "sans-serif,13" background "white"
set output ARG2
set datafile separator ","
set datafile columnheaders
set datafile missing NaN
set logscale x 2
set yrange [0:*]
set xrange [0.9:18]
set xtics (1, 2, 4, 8, 16)
set xlabel "units"
set grid
set key left top
at(program) = strcol("program") eq program ? column("units") : NaN
set multiplot layout 2, 1
set lmargin 10
set key right center
set ylabel "passes"
plot for [program in "shared private"] ARG1 using (at(program)):(column("passes")) with linespoints title program." bins"
set key left top
set ylabel "squashed turns"
plot for [program in "shared private"] ARG1 using (at(program)):(column("squashed")) with linespoints title program." bins"
unset multiplot
