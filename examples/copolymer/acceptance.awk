# Prints the acceptance numbers of the rule of Metropolis: the number k is 2^32 exp(-k strength), rounded down, for k
# from 1 as long as it is above 0. `strength` is the energy that a weight of 1 stands for, over kT.

BEGIN {
    if (strength <= 0) {
        print "the strength is to be above 0" > "/dev/stderr"
        exit 1
    }
    for (k = 1; (number = int(4294967296 * exp(-k * strength))) > 0; k++) {
        if (k > 1024) {
            print "the strength is too small: there would be more than 1024 acceptance numbers" > "/dev/stderr"
            exit 1
        }
        printf "%.0f\n", number
    }
}
