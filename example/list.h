struct list {
    const struct list *next;
};

int length(const struct list *list);
