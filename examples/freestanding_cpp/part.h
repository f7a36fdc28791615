// Parts that tell when they are made.
extern "C" long write_to(long file, const char *text, long size);

extern int made;

struct Part {
    const char *name;
    int number;

    explicit Part(const char *text);
    void tell() const;
};
