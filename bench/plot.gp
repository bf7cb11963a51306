# Time against length in four directions, from the times that bench/frames keeps: side, direction, length, ours, stack in C, OpenCV, Leptonica (0 where it has none).
set terminal pngcairo size 1600,860 font "DejaVu Sans,12"
set output picture
set logscale xy
set xrange [4:500]
set yrange [0.1:200]
set xtics (5, 21, 101, 401)
set ytics (0.1, 0.2, 0.5, 1, 2, 5, 10, 20, 50, 100, 200)
set grid ytics lt 1 lw 1 lc rgb "#d0d0d0"
set key off
set label 1 "this library" at screen 0.18,0.03 point pt 7 ps 1.5 lc rgb "#c0392b" offset 1.5,0 font ",14"
set label 2 "document 000's stack algorithm in C" at screen 0.32,0.03 point pt 5 ps 1.4 lc rgb "#555555" offset 1.5,0 font ",14"
set label 3 "OpenCV" at screen 0.58,0.03 point pt 9 ps 1.6 lc rgb "#2471a3" offset 1.5,0 font ",14"
set label 4 "Leptonica, along and across only" at screen 0.68,0.03 point pt 13 ps 1.7 lc rgb "#1e8449" offset 1.5,0 font ",14"
numbers = "0 2 4 8"
names = "'along (1, 0)' '(2, 1)' '(1, 1)' 'across (0, 1)'"
sides = "1024 4096"
spent(column, side, number) = $1 == side && $2 == number && column > 0 ? column : NaN
set multiplot layout 2,4 title "Opening a frame with a line segment: nanoseconds a pixel against length" font ",16" margins 0.05,0.985,0.16,0.9 spacing 0.035,0.12
do for [row = 1:2] {
    do for [k = 1:4] {
        side = int(word(sides, row))
        number = int(word(numbers, k))
        set title sprintf("%s, %d x %d", word(names, k), side, side)
        set xlabel (row == 2 ? "length as measured along a row" : "")
        plot data using 3:(spent($4, side, number)) with linespoints lw 3 pt 7 ps 1.3 lc rgb "#c0392b", \
             data using 3:(spent($5, side, number)) with linespoints lw 2 pt 5 ps 1.2 lc rgb "#555555", \
             data using 3:(spent($6, side, number)) with linespoints lw 2 pt 9 ps 1.4 lc rgb "#2471a3", \
             data using 3:(spent($7, side, number)) with linespoints lw 2 pt 13 ps 1.5 lc rgb "#1e8449"
        unset label
    }
}
unset multiplot
