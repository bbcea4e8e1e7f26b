/* A ledger: each line is an account letter and an amount, `a 120` or `b -40`. At the end it prints the
   balance of each account and the number of bookings.

   Defect: an amount of more than 6 digits is cut to its first 6. Nothing about the run is out of the
   ordinary: the result is wrong. */
#include <stdio.h>
#include <stdlib.h>
#include <string.h>

static int balances[26], bookings;

static void book(int account, const char *amount)
{
    char digits[12];
    int length = 0;
#ifdef FIXED
    enum { MOST = 11 };
#else
    enum { MOST = 6 };
#endif
    while (length < MOST && amount[length] > ' ') {
        digits[length] = amount[length];
        length++;
    }
    digits[length] = 0;
    balances[account] += atoi(digits);
    bookings++;
}

int main(void)
{
    char line[32];
    while (fgets(line, sizeof line, stdin))
        if (line[0] >= 'a' && line[0] <= 'z')
            book(line[0] - 'a', line + 2);
    for (int i = 0; i < 26; i++)
        if (balances[i])
            printf("%c %d\n", 'a' + i, balances[i]);
    printf("%d bookings\n", bookings);
    return 0;
}
