/* Pointers of the programs in C. As C they are its own; as C++ they do what this language asks of each access: a pointer that may be
   null is tested, and one into an array has its base, its length and its index, with one comparison for each access. So a good optimiser
   compiles the same work. */
#ifdef __cplusplus

#define INLINE inline __attribute__((always_inline))

__attribute__((noinline, noreturn, cold)) static void fail(int status) { exit(status); }

template <class T> struct Fat {
  T *base;
  unsigned length;
  unsigned index;
  INLINE T &operator[](int offset) const {
    unsigned place = index + (unsigned)offset;
    if (__builtin_expect(place >= length, 0)) fail(2);
    return base[place];
  }
  INLINE T &operator*() const { return (*this)[0]; }
  INLINE Fat operator+(int offset) const {
    Fat moved = *this;
    moved.index += offset;
    return moved;
  }
};

template <class T> struct Thin {
  T *cell;
  Thin() = default;
  INLINE Thin(T *cell) : cell(cell) {}
  INLINE Thin(int) : cell(0) {}
  INLINE operator T *() const { return cell; }
  INLINE T *operator->() const {
    if (__builtin_expect(cell == 0, 0)) fail(1);
    return cell;
  }
  INLINE T &operator*() const {
    if (__builtin_expect(cell == 0, 0)) fail(1);
    return *cell;
  }
};

#define P(type) Thin<type>
#define A(type) Fat<type>
#define ARRAY(type, name, length)  \
  static type name##_cells[length]; \
  static Fat<type> name = {name##_cells, length, 0}
/* The part of a pool of cells that begins at a place. */
#define PART(type, cells, place, length) (Fat<type>{&(cells)[place], length, 0})

#else

#define P(type) type *
#define A(type) type *
#define ARRAY(type, name, length) type name[length]
#define PART(type, cells, place, length) (&(cells)[place])

#endif
