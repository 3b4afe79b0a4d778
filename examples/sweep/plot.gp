# Violations and squashed turns against units, both axes logarithmic (so zeros are not drawn), of a table of the points:
#    gnuplot -c plot.gp TABLE PICTURE
set terminal svg size 720,640 font "sans-serif,13" background "white"
set output ARG2
set datafile separator ","
set datafile columnheaders
set datafile missing NaN
set logscale x 2
set logscale y
set yrange [1:*]
set xtics (1, 2, 4, 8, 16)
set xlabel "units"
set grid
set key left top
orders = "rotate youngest random"
at(order) = strcol("order") eq order && column("sets") == 16 && column("ways") == 2 ? column("units") : NaN
set multiplot layout 2, 1
set ylabel "tasks squashed by violations"
plot for [order in orders] ARG1 using (at(order)):(column("tasks-violation")) smooth unique with linespoints title order
set ylabel "squashed turns"
plot for [order in orders] ARG1 using (at(order)):(column("turns-squashed")) smooth unique with linespoints title order
unset multiplot
