# Passes and spilled versions of rows and columns against the lines of a cache: gnuplot -c shapes.gp TABLE PICTURE
set terminal svg size 800,640 font "sans-serif,13" background "white"
set output ARG2
set datafile separator ","
set datafile columnheaders
set datafile missing NaN
set logscale x 2
set yrange [0:*]
set xrange [3.6:72]
set xtics (4, 8, 16, 32, 64)
set xlabel "lines of each cache"
set grid
at(program, ways) = strcol("program") eq program && column("ways") == ways ? column("lines") : NaN
set key outside right top
set lmargin 8
set multiplot layout 2, 1
do for [field in "passes spilled"] {
    set ylabel field eq "spilled" ? "spilled versions" : field
    plot for [i=0:2] ARG1 using (at("columns", 2**i)):(column(field)) with linespoints linecolor i+1 title sprintf("columns, %d-way", 2**i), \
         for [i=0:2] ARG1 using (at("rows", 2**i)):(column(field)) with linespoints linecolor i+1 dashtype 2 title sprintf("rows, %d-way", 2**i)
}
unset multiplot
