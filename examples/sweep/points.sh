#!/bin/sh
# The points of a design space, one a line: units, sets, ways, order, and the seed of a random order. `oldest` isn't among
# them: on any number of units it makes the run of one.
for units in 1 2 4 8 16; do
    for sets in 1 4 16; do
        for ways in 1 2; do
            for order in rotate youngest; do
                echo "$units $sets $ways $order"
            done
            for seed in 1 2 3; do
                echo "$units $sets $ways random $seed"
            done
        done
    done
done
