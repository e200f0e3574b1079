#!/bin/sh
# Makes logs of several kinds, and prints for each what `siptrace check` needs: counted by valgrind, where it is installed, with the goals that
# are to be reached, and fails where one that was met is lost by 3 %; and timed, beside what cat needs for the same file. With numbers, logs of about
# so many entries are timed; else of 10,000 and of 100,000.
#
#   bench/judge.sh [ENTRIES ..]
#   bench/judge.sh growth                     some kinds alone, of 10,000, 100,000 and 1,000,000 entries side by side, timed
#   bench/judge.sh beside PROGRAM [ENTRIES]   the kinds, timed in turn with another program: with that of 27 November 2026 (git show
#                                             4397bff9:built/) it prints the goals of time and memory too
#   bench/judge.sh shapes                     hostile messages and wide transactions, counted: what a byte takes in a message of 4 KiB and in one of
#                                             64 KiB, which is about the same where reading is linear, and what an entry takes by how many states there
#                                             are and how much is owed; then what owed prints of each header
#   bench/judge.sh owed [HEADER ..] [long] [LOG ..]
#                                             hostile logs in which much is owed, timed in three lengths: which of them do not grow in line. HEADER is
#                                             6026 (it stands for none), 3261, early or restarts; long is for lengths eight times as long
#   bench/judge.sh survey                     a survey beside a verdict, counted and timed
#   bench/judge.sh parts [ENTRIES]            four parts of a log at once beside the whole, counted and timed
#   bench/judge.sh stream [ENTRIES ..]        the most memory of a survey that forgets, after so many entries of calls without an end
#
# SIPTRACE and SIPSURVEY name other programs than those of ./siptrace and ./sipsurvey. To measure on one processor, call it by taskset.
set -e
unset CDPATH
if [ -n "$SIPTRACE" ]; then SIPTRACE=$(realpath -- "$SIPTRACE"); fi
if [ -n "$SIPSURVEY" ]; then SIPSURVEY=$(realpath -- "$SIPSURVEY"); fi
cd "$(dirname "$0")/.."
if [ -z "$SIPTRACE" ]; then SIPTRACE=$PWD/built/$(./build); fi
if [ "$1" = survey ]; then exec python3 -B bench/survey.py "$SIPTRACE" "${SIPSURVEY:-$PWD/built/$(./build sipsurvey)}"; fi
if [ "$1" = parts ]; then shift && exec python3 -B bench/parts.py "${SIPSURVEY:-$PWD/built/$(./build sipsurvey)}" "$@"; fi
if [ "$1" = stream ]; then shift && exec python3 -B bench/stream.py "${SIPSURVEY:-$PWD/built/$(./build sipsurvey)}" "$@"; fi
if [ "$1" = shapes ]; then python3 -B bench/shapes.py "$SIPTRACE"; exec python3 -B bench/owed.py "$SIPTRACE" 6026 3261 early restarts; fi
if [ "$1" = owed ]; then shift && exec python3 -B bench/owed.py "$SIPTRACE" "$@"; fi
exec python3 bench/judge.py "$SIPTRACE" "$@"
