// Four accounts pay each other in turn, and a note is cleared at each round. It has a bug, and is stopped where that
// shows: docs/debugging.md goes from there back to where it is made.

#include "console.h"

#define APART __attribute__((noinline))

struct account {
    struct account *peer;
    int balance;
};

static struct {
    char note[8];
    struct account accounts[4];
} bank;

static APART void credit(struct account *to, int amount)
{
    to->balance += amount;
}

static APART void transfer(struct account *from, int amount)
{
    from->balance -= amount;
    credit(from->peer, amount);
}

static APART void settle(int round)
{
    transfer(&bank.accounts[round % 4], round);
}

static APART void clear_note(int length)
{
    for (int i = 0; i < length; i++) {
        bank.note[i] = 0;
    }
}

static APART void play(int round)
{
    clear_note(round == 41 ? 12 : 8);
    settle(round);
}

int main(void)
{
    for (int i = 0; i < 4; i++) {
        bank.accounts[i].peer = &bank.accounts[(i + 1) % 4];
    }
    console_print("open\n");
    for (int round = 1; round < 1000; round++) {
        play(round);
    }
    return 0;
}
