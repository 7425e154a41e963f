#include "numbers.h"

#include "../include/fifty_five.h"

const char *number_text(uint64_t number)
{
    switch (number) {
    case FIFTY_FIVE_WENT_ON: return "went on";
    case FIFTY_FIVE_CORE_LENGTH: return "a core of no words, or of over 32,768";
    case FIFTY_FIVE_REGISTER: return "out of range, or empty and not 0";
    case FIFTY_FIVE_FILE_LENGTH: return "a length that is no multiple of 6";
    case FIFTY_FIVE_BUDGET: return "a budget over 1,000,000";
    case FIFTY_FIVE_ADDRESS: return "address outside core";
    case FIFTY_FIVE_OVERFLOW: return "stack overflow: a push to where the reference table starts";
    case FIFTY_FIVE_PRESENCE: return "presence: the descriptor is not present";
    case FIFTY_FIVE_FLAG: return "flag on where an operand is due, or off where a control word is";
    case FIFTY_FIVE_INDEX: return "index below 0 or not below the size";
    case FIFTY_FIVE_COMMUNICATE: return "communicate";
    case FIFTY_FIVE_NOT_BUILT: return "not built: this machine has no such operator or mode";
    case FIFTY_FIVE_NOT_WHOLE: return "a number that is not whole, or past 39 bits";
    case FIFTY_FIVE_ZERO_DIVISOR: return "zero divisor";
    default: return "a number that this panel does not know";
    }
}
