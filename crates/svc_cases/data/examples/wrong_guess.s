# Guesses that are wrong. Three tasks are the rounds of a loop, and the fourth comes after it. Which task is next, a unit has to
# guess before the one before it has ended.
#
#   svcsim assemble wrong_guess.s wrong_guess.svci
#   svcsim run wrong_guess.svci --units 2 --schedule rotate --trace wrong_guess.csv
#
# The first guess is the next entry of the text, which is wrong: another round follows. See the first row whose cause is guess.
# Once a round was committed the guess is one more round, and where the task before has ended the next one is known.

.svc_limit 100
.svc_register s0, rounds        # each task begins with the word's address here

.svc_entry
round:  lw t0, 0(s0)
        addi t0, t0, 1
        sw t0, 0(s0)
        addi t1, zero, 3
        blt t0, t1, round       # the next task is one more round, until three are done

.svc_entry
done:   lw a0, 0(s0)
        addi a7, zero, 1
        ecall                   # puts out 3
        mv a7, zero
        ecall                   # exits with 3

.data
rounds: .word 0
