# Draws time against size in two panels, from the columns that `bench --grow` wrote: gnuplot -e "from='FOLDER'; to='FILE'" plot.gp
set terminal svg size 960,420 dynamic font 'sans-serif,13' background rgb 'white'
set output to

# The ground is white and the ink dark whatever page the drawing lies on.
set border 3 linecolor rgb '#444444'
set tics nomirror
set grid linecolor rgb '#dddddd'
set logscale xy
set format y '10^{%L}'
set ylabel 'nanoseconds an image'
set key top left reverse Left
set style data linespoints
set style line 1 linecolor rgb '#0072b2' linewidth 2 pointtype 7 pointsize 0.5
set style line 2 linecolor rgb '#d55e00' linewidth 2 pointtype 5 pointsize 0.5
set style line 3 linecolor rgb '#009e73' linewidth 2 pointtype 9 pointsize 0.6

set multiplot layout 1,2
set title 'Growing scripts: a tree of sums'
set xlabel 'nodes'
plot [1:2200] for [column in 'library tuned second'] \
    from.'/scripts.dat' using 'size':column linestyle (column eq 'library' ? 1 : column eq 'tuned' ? 2 : 3) title column
set title 'Growing lists, judged from their last node back'
set xlabel 'cells'
plot [2:4400] for [column in 'library tuned second'] \
    from.'/lists.dat' using 'size':column linestyle (column eq 'library' ? 1 : column eq 'tuned' ? 2 : 3) title column
unset multiplot
