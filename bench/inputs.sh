#!/bin/sh
# Writes the inputs of the measurements into the folder FOLDER, by the program marking.
# usage: inputs.sh MARKING FOLDER
set -eu
marking=$1
folder=$2
mkdir -p "$folder"
# 100,000 blocks of 6 points, for (32,6,4)
"$marking" generate 32 6 100000 1 > "$folder/many_small_blocks"
# 18,821 blocks of 25 points: about 10^9 marks for (30,25,5)
"$marking" generate 30 25 18821 2 > "$folder/many_marks_in_a_small_map"
# 924 blocks of 25 points: about 10^9 marks for (42,25,8)
"$marking" generate 42 25 924 3 > "$folder/many_marks_in_a_large_map"
# 100 blocks of 8 points, for (52,8,7): 133,784,560 sets, close to 2^27
"$marking" generate 52 8 100 4 > "$folder/most_sets"
# 5,646 blocks of 25 points: about 10^9 marks for (60,25,6)
"$marking" generate 60 25 5646 5 > "$folder/many_marks_at_60"
# 64,500 blocks of 20 points: about 10^9 marks for (99,20,5), in blocks that are sparse among the points
"$marking" generate 99 20 64500 6 > "$folder/sparse_blocks"
# 100,000 blocks of 25 points, for (99,25,2)
"$marking" generate 99 25 100000 7 > "$folder/pairs"
