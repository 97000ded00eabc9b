/* Works out formulas over names, numbers and functions, one after the other, and a few systems of
   linear equations with the values that they leave. */

typedef unsigned long size_type;
typedef unsigned int hash_type;

extern int printf(const char *format, ...);
extern void *calloc(size_type count, size_type size);
extern void free(void *memory);

enum size { BUCKETS = 16, FUNCTIONS = 3, FORMULAS = 6, ROWS = 3, COLUMNS = 4 };
enum kind { NAME, NUMBER, SIGN, END, ILL_FORMED = -1 };

struct token {
    enum kind kind;
    const char *text;
    size_type length;
    double value;
};

struct entry {
    const char *name;
    size_type length;
    hash_type hash;
    double value;
    struct entry *next;
};

struct table {
    struct entry *buckets[BUCKETS];
    size_type count;
    hash_type (*hash_of)(const char *name, size_type length);
};

struct reader {
    const char *at;
    struct token token;
    struct table *names;
    int faults;
};

struct function {
    const char *name;
    double (*call)(double left, double right);
};

/* Text */

static int is_digit(char c)
{
    return c >= '0' && c <= '9';
}

static int is_letter(char c)
{
    return (c >= 'a' && c <= 'z') || (c >= 'A' && c <= 'Z') || c == '_';
}

static size_type length_of(const char *text)
{
    const char *end = text;
    while (*end != '\0')
        ++end;
    return (size_type)(end - text);
}

static int is_same(const char *left, const char *right, size_type length)
{
    for (size_type i = 0; i < length; i++) {
        if (left[i] != right[i])
            return 0;
    }
    return 1;
}

/* The table of names */

static hash_type sum_of_bytes(const char *name, size_type length)
{
    hash_type hash = 5381u;
    while (length-- > 0)
        hash = (hash << 5) + hash + (unsigned char)*name++;
    return hash;
}

static hash_type stirred(const struct entry *entry)
{
    hash_type mixed = entry->hash;
    mixed ^= (entry->hash >> 33) * 0x9e3779b1u;
    mixed ^= mixed >> 15;
    return mixed;
}

static struct entry *find(const struct table *table, const char *name, size_type length)
{
    struct entry key = { name, length, table->hash_of(name, length), 0.0, 0 };
    struct entry *entry = table->buckets[stirred(&key) % BUCKETS];
    while (entry && !(entry->length == length && is_same(entry->name, name, length)))
        entry = entry->next;
    return entry;
}

static int put(struct table *table, const char *name, size_type length, double value)
{
    struct entry *entry = find(table, name, length);
    struct entry **bucket;
    if (entry != 0) {
        entry->value = value;
        return 1;
    }
    entry = calloc(1, sizeof(struct entry));
    if (entry == 0)
        return 0;
    entry->name = name;
    entry->length = length;
    entry->hash = table->hash_of(name, length);
    entry->value = value;
    bucket = &table->buckets[stirred(entry) % BUCKETS];
    entry->next = *bucket;
    *bucket = entry;
    table->count += 1;
    return 1;
}

static void clear(struct table *table)
{
    size_type i = 0;
    do {
        struct entry *entry = table->buckets[i];
        while (entry) {
            struct entry *next = entry->next;
            free(entry);
            entry = next;
        }
        table->buckets[i] = 0;
    } while (++i < BUCKETS);
    table->count = 0;
}

/* The words of a formula */

static double number_at(const char **at)
{
    double value = 0, unit = 1;
    for (; is_digit(**at); ++*at)
        value = value * 10 + (**at - '0');
    if (**at == '.') {
        for (++*at; is_digit(**at); ++*at) {
            unit /= 10;
            value += unit * (**at - '0');
        }
    }
    return value;
}

static void step(struct reader *reader)
{
    struct token *token = &reader->token;
    while (*reader->at == ' ' || *reader->at == '\t')
        reader->at++;
    *token = (struct token){ END, reader->at, 0, 0.0 };
    if (is_digit(*reader->at)) {
        token->kind = NUMBER;
        token->value = number_at(&reader->at);
    } else if (is_letter(*reader->at)) {
        token->kind = NAME;
        while (is_letter(*reader->at) || is_digit(*reader->at))
            reader->at++;
    } else {
        switch (*reader->at) {
        case '\0':
            return;
        case '+': case '-': case '*': case '/': case '(': case ')': case ',': case '=':
            token->kind = SIGN;
            break;
        default:
            token->kind = ILL_FORMED;
            reader->faults++;
        }
        reader->at++;
    }
    token->length = (size_type)(reader->at - token->text);
}

static int take(struct reader *reader, char sign)
{
    if (reader->token.kind != SIGN || *reader->token.text != sign)
        return 0;
    step(reader);
    return 1;
}

/* Formulas */

static double least(double left, double right) { return left < right ? left : right; }
static double greatest(double left, double right) { return left < right ? right : left; }
static double middle(double left, double right) { return (left + right) / 2; }

static const struct function functions[FUNCTIONS] = {
    { "min", least },
    { .name = "max", .call = greatest },
    [2] = { "mid", middle },
};

static double sum(struct reader *reader);

static double called(struct reader *reader, const struct token *name)
{
    double left = sum(reader), right = left;
    if (take(reader, ','))
        right = sum(reader);
    if (!take(reader, ')'))
        goto fault;
    for (size_type i = 0; i < FUNCTIONS; i++) {
        const struct function *function = functions + i;
        if (length_of(function->name) == name->length && is_same(function->name, name->text, name->length))
            return function->call(left, right);
    }
fault:
    reader->faults++;
    return 0;
}

static double operand(struct reader *reader)
{
    struct token token = reader->token;
    double value = 0;
    if (take(reader, '-'))
        return -operand(reader);
    if (take(reader, '(')) {
        value = sum(reader);
        reader->faults += !take(reader, ')');
        return value;
    }
    step(reader);
    if (token.kind == NUMBER)
        return token.value;
    if (token.kind == NAME && take(reader, '('))
        return called(reader, &token);
    if (token.kind == NAME) {
        const struct entry *entry = find(reader->names, token.text, token.length);
        if (entry)
            return entry->value;
    }
    reader->faults++;
    return value;
}

static double product(struct reader *reader)
{
    double value = operand(reader);
    for (;;) {
        if (take(reader, '*'))
            value *= operand(reader);
        else if (take(reader, '/'))
            value /= operand(reader);
        else
            return value;
    }
}

static double sum(struct reader *reader)
{
    double value = product(reader);
    while (1) {
        int plus = take(reader, '+');
        if (!plus && !take(reader, '-'))
            break;
        value += plus ? product(reader) : -product(reader);
    }
    return value;
}

static int assign(struct table *names, const char *text)
{
    struct reader reader = { .at = text, .names = names, .faults = 0 };
    struct token name;
    double value;
    step(&reader);
    name = reader.token;
    step(&reader);
    if (name.kind != NAME || !take(&reader, '='))
        return 0;
    value = sum(&reader);
    return reader.faults == 0 && reader.token.kind == END && put(names, name.text, name.length, value);
}

/* Systems of equations */

static int solve(double rows[ROWS][COLUMNS], double solution[ROWS])
{
    for (int column = 0; column < ROWS; column++) {
        int pivot = column;
        while (pivot < ROWS && rows[pivot][column] == 0)
            pivot++;
        if (pivot == ROWS)
            return 0;
        for (int i = 0; i < COLUMNS; i++) {
            double kept = rows[column][i];
            rows[column][i] = rows[pivot][i];
            rows[pivot][i] = kept;
        }
        for (int row = 0; row < ROWS; row++) {
            double times = rows[row][column] / rows[column][column];
            for (int i = column; row != column && i < COLUMNS; i++)
                rows[row][i] -= times * rows[column][i];
        }
    }
    for (int row = 0; row < ROWS; row++)
        solution[row] = rows[row][COLUMNS - 1] / rows[row][row];
    return 1;
}

int main(void)
{
    static const char *const formulas[FORMULAS] = {
        "width = 12.5", "height = (width + 3) * 2", "area = width * height / 2",
        "lower = min(width, height) - -1", "share = mid(area, max(lower, 7))", "wrong = 2 * (",
    };
    struct table names = { .count = 0, .hash_of = sum_of_bytes };
    double rows[ROWS][COLUMNS] = { { 2, 1, -1, 8 }, { -3, -1, 2, -11 }, { -2, 1, 2, 0 } }, solution[ROWS];
    const struct entry *last;
    for (size_type i = 0; i < FORMULAS; i++)
        printf("%s: %s\n", formulas[i], assign(&names, formulas[i]) ? "yes" : "no");
    last = find(&names, "share", 5);
    rows[2][3] = last ? last->value : 0;
    if (solve(rows, solution))
        printf("%lu names, " "x = %g, y = %g, z = %g\n", names.count, solution[0], solution[1], solution[2]);
    clear(&names);
    return 0;
}
