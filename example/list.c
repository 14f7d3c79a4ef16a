#include "list.h"

int length(const struct list *list) {
    int count = 0;
    for (; list; list = list->next) count++;
    return count;
}
