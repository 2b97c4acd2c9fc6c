// Little of everything, for debug information that is cut or has another byte.
struct pair {
    int left[2];
    struct pair *other;
};

struct pair pairs[2];

static inline int sum(struct pair *p) {
    int all = p->left[0];
    return all + p->left[1];
}

int main(void) {
    int found = sum(&pairs[1]);
    {
        int twice = found * 2;
        pairs[0].left[1] = twice;
    }
    return sum(&pairs[0]);
}
