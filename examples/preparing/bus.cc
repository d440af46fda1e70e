/* Two kinds of device on a bus: virtual functions, a template, and a static object in an inline function. */
typedef unsigned int u32;
extern volatile u32 port;

template <typename T, u32 N>
struct Ring {
    T items[N];
    u32 first, count;
    Ring() : first(0), count(0) { port = N; }
    ~Ring() { port = 0; }
    void put(T item) { items[(first + count++) % N] = item; }
    T take() { count--; return items[first++ % N]; }
};

inline Ring<u32, 8> &faults()
{
    static Ring<u32, 8> faults;
    return faults;
}

struct Device {
    virtual ~Device() {}
    virtual u32 read(u32 place) { faults().put(place); return 0; }
    virtual void write(u32 place, u32) { faults().put(place); }
    virtual u32 size() const { return 0; }
};

struct Memory : Device {
    Ring<u32, 4> recent;
    u32 words[16];
    u32 read(u32 place) override { recent.put(place); return words[place % 16]; }
    void write(u32 place, u32 value) override { words[recent.take() % 16] = value + place; }
    u32 size() const override { return 16; }
};

struct Lamp : Device {
    Ring<unsigned char, 2> last;
    void write(u32 place, u32 value) override { last.put(value); port = place ? last.take() : value; }
    u32 size() const override { return 1; }
};

u32 copy(Device &from, Device &to)
{
    for (u32 place = 0; place < from.size(); place++)
        to.write(place, from.read(place));
    return faults().count ? faults().take() : 0;
}

u32 start()
{
    Memory memory;
    Lamp lamp;
    return copy(memory, lamp);
}
