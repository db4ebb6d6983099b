// Formatted print, by C's rules for printf. What is not called is not linked.

#include <stdbool.h>
#include <stdint.h>
#include <stdio.h>
#include <string.h>
#include <libtock-sync/interface/console.h>

// Where a text goes: to the console, over a few bytes that are gathered, or to the caller's bytes, as many as there
// are.
struct output {
    char *bytes;
    size_t size, length;
    bool is_console;
    returncode_t code;
    int count;
};

static void flush(struct output *output)
{
    int written;
    if (output->length > 0 && output->code == RETURNCODE_SUCCESS) {
        output->code = libtocksync_console_write((const uint8_t *)output->bytes, output->length, &written);
    }
    output->length = 0;
}

static void put_bytes(struct output *output, const char *bytes, size_t length)
{
    output->count += length;
    while (length > 0 && (output->is_console || output->length < output->size)) {
        if (output->length == output->size) {
            flush(output);
        }
        size_t room = output->size - output->length, part = length < room ? length : room;
        memcpy(output->bytes + output->length, bytes, part);
        output->length += part;
        bytes += part;
        length -= part;
    }
}

static void put_times(struct output *output, char letter, int times)
{
    for (; times > 0; times--) {
        put_bytes(output, &letter, 1);
    }
}

// A conversion of a format. A width or a precision below 0 is none.
struct conversion {
    bool is_left, has_zeros, is_alternate;
    char sign;        // what stands before a number that is not negative: '+', ' ' or 0
    int width, precision;
    int size;         // of an integer, in bytes
    char letter;
};

// What a conversion writes: a prefix, zeros up to the precision, and the text.
struct field {
    char prefix[3];
    const char *text;
    size_t length;
};

static void put_field(struct output *output, const struct conversion *conversion, const struct field *field)
{
    int prefix = strlen(field->prefix), length = field->length;
    int zeros = conversion->precision - length;
    if (conversion->precision < 0 && conversion->has_zeros && !conversion->is_left) {
        zeros = conversion->width - prefix - length;
    }
    zeros = zeros > 0 ? zeros : 0;
    int blanks = conversion->width - prefix - zeros - length;
    put_times(output, ' ', conversion->is_left ? 0 : blanks);
    put_bytes(output, field->prefix, prefix);
    put_times(output, '0', zeros);
    put_bytes(output, field->text, length);
    put_times(output, ' ', conversion->is_left ? blanks : 0);
}

// The flags of a conversion; returns where they end.
static const char *read_flags(const char *format, struct conversion *conversion)
{
    for (;; format++) {
        switch (*format) {
        case '-': conversion->is_left = true; break;
        case '0': conversion->has_zeros = true; break;
        case '#': conversion->is_alternate = true; break;
        case '+': conversion->sign = '+'; break;
        case ' ': conversion->sign = conversion->sign == '+' ? '+' : ' '; break;
        default: return format;
        }
    }
}

// A number in the format, or the next argument where a star stands for it; returns where it ends.
static const char *read_number(const char *format, int *number, va_list *arguments)
{
    if (*format == '*') {
        *number = va_arg(*arguments, int);
        return format + 1;
    }
    *number = 0;
    for (; *format >= '0' && *format <= '9'; format++) {
        *number = *number * 10 + *format - '0';
    }
    return format;
}

// The letters for the size of an integer; returns where they end.
static const char *read_size(const char *format, struct conversion *conversion)
{
    conversion->size = sizeof(int);
    bool is_double = format[0] == format[1];
    switch (*format) {
    case 'h': conversion->size = is_double ? sizeof(char) : sizeof(short); break;
    case 'l': conversion->size = is_double ? sizeof(long long) : sizeof(long); break;
    case 'j': conversion->size = sizeof(intmax_t); return format + 1;
    case 'z': case 't': return format + 1;
    default: return format;
    }
    return format + (is_double ? 2 : 1);
}

// What stands behind a percent sign; returns where it ends.
static const char *read_conversion(const char *format, struct conversion *conversion, va_list *arguments)
{
    *conversion = (struct conversion){.precision = -1};
    format = read_flags(format, conversion);
    format = read_number(format, &conversion->width, arguments);
    if (conversion->width < 0) {
        conversion->is_left = true;
        conversion->width = -conversion->width;
    }
    if (*format == '.') {
        format = read_number(format + 1, &conversion->precision, arguments);
    }
    format = read_size(format, conversion);
    conversion->letter = *format;
    return *format != 0 ? format + 1 : format;
}

// An integer argument of a size, with its sign or without.
static unsigned long long read_integer(int size, bool is_signed, va_list *arguments)
{
    if (size == sizeof(long long)) {
        return va_arg(*arguments, unsigned long long);
    }
    int number = va_arg(*arguments, int);
    if (size == sizeof(short)) {
        number = is_signed ? (short)number : (unsigned short)number;
    } else if (size == sizeof(char)) {
        number = is_signed ? (signed char)number : (unsigned char)number;
    }
    return is_signed ? (unsigned long long)number : (unsigned)number;
}

static char digit(unsigned value, bool is_upper)
{
    return value < 10 ? '0' + value : value - 10 + (is_upper ? 'A' : 'a');
}

// Writes the digits of a number before an end, and returns where they begin; 0 has none.
static char *write_small(char *end, uint32_t number, unsigned base, bool is_upper)
{
    for (; number > 0; number /= base) {
        *--end = digit(number % base, is_upper);
    }
    return end;
}

// The same. Numbers of 64 bits are divided by a function of the compiler's, so only what does not fit into 32 is.
static char *write_digits(char *end, unsigned long long number, unsigned base, bool is_upper)
{
    while (number > UINT32_MAX) {
        unsigned long long rest = number / base;
        *--end = digit((unsigned)(number - rest * base), is_upper);
        number = rest;
    }
    return write_small(end, number, base, is_upper);
}

static void put_integer(struct output *output, struct conversion *conversion, va_list *arguments)
{
    char digits[24], *end = digits + sizeof digits;
    bool is_signed = conversion->letter == 'd' || conversion->letter == 'i', is_upper = conversion->letter == 'X';
    unsigned base = conversion->letter == 'o' ? 8 : conversion->letter == 'x' || is_upper ? 16 : 10;
    unsigned long long number = read_integer(conversion->size, is_signed, arguments);
    bool is_negative = is_signed && (long long)number < 0;
    struct field field = {{is_negative ? '-' : is_signed ? conversion->sign : 0}, NULL, 0};
    if (conversion->is_alternate && base == 16 && number != 0) {
        field.prefix[0] = '0';
        field.prefix[1] = conversion->letter;
    }
    char *first = write_digits(end, is_negative ? -number : number, base, is_upper);
    if ((number == 0 && conversion->precision != 0) || (conversion->is_alternate && base == 8)) {
        *--first = '0';
    }
    field.text = first;
    field.length = end - first;
    put_field(output, conversion, &field);
}

static void put_text(struct output *output, struct conversion *conversion, const char *text)
{
    text = text != NULL ? text : "(null)";
    size_t length = conversion->precision < 0 ? strlen(text) : strnlen(text, conversion->precision);
    conversion->precision = -1;
    conversion->has_zeros = false;
    put_field(output, conversion, &(struct field){{0}, text, length});
}

// A conversion that is not known is printed as its letter.
static void put_conversion(struct output *output, struct conversion *conversion, va_list *arguments)
{
    char letter = conversion->letter;
    switch (letter) {
    case 'd': case 'i': case 'u': case 'o': case 'x': case 'X':
        put_integer(output, conversion, arguments);
        return;
    case 'p':
        conversion->letter = 'x';
        conversion->is_alternate = true;
        put_integer(output, conversion, arguments);
        return;
    case 's':
        put_text(output, conversion, va_arg(*arguments, const char *));
        return;
    case 'c':
        letter = va_arg(*arguments, int);
        conversion->precision = -1;
        conversion->has_zeros = false;
        put_field(output, conversion, &(struct field){{0}, &letter, 1});
        return;
    default:
        put_bytes(output, &letter, 1);
    }
}

// Where the next percent sign of a format stands, or its end.
static const char *next_percent(const char *format)
{
    while (*format != 0 && *format != '%') {
        format++;
    }
    return format;
}

static void put_format(struct output *output, const char *format, va_list *arguments)
{
    struct conversion conversion;
    while (*format != 0) {
        const char *percent = next_percent(format);
        put_bytes(output, format, percent - format);
        format = percent;
        if (*format != 0) {
            format = read_conversion(format + 1, &conversion, arguments);
            put_conversion(output, &conversion, arguments);
        }
    }
}

// As many bytes as the serial line takes at a time.
enum { GATHERED = 64 };

int vprintf(const char *format, va_list arguments)
{
    char gathered[GATHERED];
    struct output output = {.bytes = gathered, .size = sizeof gathered, .is_console = true};
    va_list copy;
    va_copy(copy, arguments);
    put_format(&output, format, &copy);
    va_end(copy);
    flush(&output);
    return output.code == RETURNCODE_SUCCESS ? output.count : (int)output.code;
}

int printf(const char *format, ...)
{
    va_list arguments;
    va_start(arguments, format);
    int count = vprintf(format, arguments);
    va_end(arguments);
    return count;
}

int puts(const char *text)
{
    return printf("%s\n", text);
}

int putchar(int letter)
{
    return printf("%c", letter) == 1 ? (unsigned char)letter : EOF;
}

int vsnprintf(char *to, size_t size, const char *format, va_list arguments)
{
    struct output output = {.bytes = to, .size = size > 0 ? size - 1 : 0};
    va_list copy;
    va_copy(copy, arguments);
    put_format(&output, format, &copy);
    va_end(copy);
    if (size > 0) {
        to[output.length] = 0;
    }
    return output.count;
}

int snprintf(char *to, size_t size, const char *format, ...)
{
    va_list arguments;
    va_start(arguments, format);
    int count = vsnprintf(to, size, format, arguments);
    va_end(arguments);
    return count;
}
