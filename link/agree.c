/* Drawn calls on drawn states, good and bad; prints how many and one sum over every answer, output and state: the same on every processor.
 * It needs no C library (bare.c). */
#include "mittenload.h"

void say(const char *text, uint64_t number);

static uint64_t seed = 1, sum = 14695981039346656037u, calls, refused;

static uint32_t draw(void)
{
    seed = seed * 6364136223846793005u + 1442695040888963407u;
    return (uint32_t)(seed >> 32);
}

static void add(const void *at, uint64_t length)
{
    const uint8_t *bytes = at;
    for (uint64_t i = 0; i < length; i++)
        sum = (sum ^ bytes[i]) * 1099511628211u;
}
#define ADD(x) add(&(x), sizeof(x))

static void answered(uint32_t number)
{
    ADD(number);
    calls++;
    refused += number > 2;
}

static void valued(int32_t value)
{
    ADD(value);
    calls++;
}

static void fill(void *at, uint64_t length)
{
    uint8_t *bytes = at;
    for (uint64_t i = 0; i < length; i++)
        bytes[i] = (uint8_t)draw();
}

enum { MOST = 40 };

/* a state that nobody made, now and then; then eight calls of any kind */
#define RUN_CIC(NAME, WORD)                                                                                                                 \
    static void add_##NAME(const ml_##NAME *s)                                                                                              \
    {                                                                                                                                       \
        ADD(s->order), ADD(s->delay), ADD(s->rate), ADD(s->countdown), ADD(s->unsettled), ADD(s->inputs), ADD(s->hold);                     \
        ADD(s->integrators), ADD(s->combs);                                                                                                 \
    }                                                                                                                                       \
    static void run_##NAME(void)                                                                                                            \
    {                                                                                                                                       \
        static WORD in[MOST], out[MOST];                                                                                                    \
        ml_##NAME s = {0};                                                                                                                  \
        answered(ml_##NAME##_new(&s, draw() % 10, draw() % 10, draw() % 4 ? draw() % 9 : draw() % 70000));                                  \
        if (draw() % 8 == 0) {                                                                                                              \
            s.order = draw() % 10, s.delay = draw() % 10, s.unsettled = draw() % 90, s.countdown = draw() % 70000;                          \
            s.inputs = draw() % 2 ? UINT64_MAX - draw() % 50 : draw();                                                                      \
            fill(s.integrators, sizeof s.integrators), fill(s.combs, sizeof s.combs), fill(&s.hold, sizeof s.hold);                         \
        }                                                                                                                                   \
        for (int k = 0; k < 8; k++) {                                                                                                       \
            uint64_t n = draw() % (MOST + 1), m = draw() % 4 ? MOST : draw() % MOST, read = draw();                                         \
            WORD x, y;                                                                                                                      \
            fill(&x, sizeof x), fill(&y, sizeof y), fill(in, sizeof in), fill(out, sizeof out);                                             \
            ml_##NAME##_output given = {y, 5, 6};                                                                                           \
            ml_written w = {7, 8, 9};                                                                                                       \
            uint32_t yes = draw();                                                                                                          \
            answered(ml_refusal(&s)), answered(ml_gain(&s, &read)), ADD(read), answered(ml_gain_log2(&s, &read)), ADD(read);                \
            answered(ml_response_length(&s, &read)), ADD(read), answered(ml_low_rate_length(&s, n, &read)), ADD(read);                      \
            answered(ml_fit(&s, draw() % 4 ? 32 : draw() % 70, draw() % 34, &yes)), ADD(yes);                                               \
            uint64_t first = draw(), settled = draw();                                                                                      \
            switch (draw() % 12) {                                                                                                          \
            case 0: answered(ml_##NAME##_set_rate(&s, draw() % 8 ? draw() % 9 : draw() % 70000)); break;                                    \
            case 1: answered(ml_##NAME##_resume(&s)); break;                                                                                \
            case 2: answered(ml_##NAME##_clear(&s)); break;                                                                                 \
            case 3: answered(ml_##NAME##_settle_interpolate(&s, x)); break;                                                                 \
            case 4: answered(ml_##NAME##_interpolate_sample(&s, x, &y)); break;                                                             \
            case 5: answered(ml_##NAME##_interpolate_held(&s, &y)); break;                                                                  \
            case 6: answered(ml_##NAME##_interpolate_block(&s, in, n, out, m, &read)); break;                                               \
            case 7: answered(ml_##NAME##_get_interpolate(&s, &y)); break;                                                                   \
            case 8: case 9: answered(ml_##NAME##_decimate(&s, x, &given)); break;                                                           \
            default: answered(ml_##NAME##_decimate_block(&s, in, n, out, m, &w));                                                           \
            }                                                                                                                               \
            answered(ml_##NAME##_settled(out, m, &w, &first, &settled)), ADD(first), ADD(settled);                                          \
            ADD(y), ADD(given.value), ADD(given.told), ADD(given.number), ADD(w.count), ADD(w.told), ADD(w.number), ADD(read), ADD(out);     \
            add_##NAME(&s);                                                                                                                 \
        }                                                                                                                                   \
    }
RUN_CIC(cic, int32_t)
RUN_CIC(cic64, int64_t)

/* a double of at most 3 in size with 20 bits, so that no processor meets a NaN */
static double number(void) { return ((int32_t)(draw() % 2097152) - 1048576) / 349525.0; }

static void run_others(void)
{
    static int32_t in[MOST], out[MOST];
    static double din[MOST], dout[MOST];
    static int16_t sout[MOST];
    uint64_t n = draw() % (MOST + 1), m = draw() % 4 ? n : draw() % MOST;
    fill(in, sizeof in), fill(out, sizeof out);
    for (int i = 0; i < MOST; i++)
        din[i] = number(), dout[i] = number(), sout[i] = (int16_t)draw();

    ml_unwrapper u;
    fill(&u, sizeof u);
    answered(ml_unwrap(&u, in, n, out, m));
    ADD(u.y), ADD(out);
    uint32_t wrap = draw();
    valued(ml_wraps(&u)), valued(ml_phase(&u)), valued(ml_sub((int32_t)draw(), (int32_t)draw(), &wrap));
    ADD(wrap);

    ml_clamp c = {(int32_t)draw(), draw() % 4};
    answered(ml_clamp_wrap(&c, in, n, out, m));
    ADD(c.x0), ADD(c.wrap), ADD(out);

    int32_t y = (int32_t)draw(), z = (int32_t)draw();
    answered(ml_scale((int32_t)draw(), (int32_t)draw(), draw() % 36, &y));
    ADD(y);

    ml_modulator d = {draw() % 10, {0}, {0}};
    for (int i = 0; i < 8; i++)
        d.accumulators[i] = draw(), d.retained[i] = (int16_t)(draw() % 8 ? 0 : draw() % 4);
    answered(ml_dsm(&d, (const uint32_t *)in, n, sout, m));
    ADD(d.order), ADD(d.accumulators), ADD(d.retained), ADD(sout);

    int16_t least = 3, greatest = 4;
    answered(ml_dsm_output_range(&d, &least, &greatest));
    answered(ml_dsm_new(&d, draw() % 10));
    ADD(least), ADD(greatest), ADD(d.order), ADD(d.accumulators), ADD(d.retained);

    ml_lattice l = {draw() % 10, draw() % 4 ? draw() % 65536 : draw(), {0}, {0}};
    fill(l.a, sizeof l.a), fill(l.z, sizeof l.z);
    answered(ml_wdf(&l, in, n, out, m));
    ADD(l.sections), ADD(l.architecture), ADD(l.a), ADD(l.z), ADD(out);
    valued((int32_t)ml_wdf_current(l.sections, l.architecture));
    answered(draw() % 2 ? ml_wdf_new(&l) : ml_wdf_from_form1(&l));
    ADD(l.sections), ADD(l.architecture), ADD(l.a), ADD(l.z);
    answered(ml_wdf_quantize((uint8_t)(draw() % 18), number() / 2, &y));
    ADD(y);

    ml_biquad b = {number(), number(), number(), number() / 4, number() / 4};
    ml_biquad_clamp bc = {b.b0, b.b1, b.b2, b.a1, b.a2, number(), number(), number()};
    ml_form1 f1 = {number(), number(), number(), number()};
    ml_form2 f2 = {number(), number()};
    answered(ml_df1(&b, &f1, din, n, dout, m));
    ADD(f1), ADD(dout);
    answered(ml_df1_clamp(&bc, &f1, din, n, dout, m));
    ADD(f1), ADD(dout);
    answered(ml_df2t(&b, &f2, din, n, dout, m));
    ADD(f2), ADD(dout);
    answered(ml_df2t_clamp(&bc, &f2, din, n, dout, m));
    ADD(f2), ADD(dout);

    ml_pair zeros = {draw() % 2, number(), number()}, poles = {draw() % 3, number(), number()};
    double offset = number(), gain;
    ml_biquad_from_zpk(&b, &zeros, &poles, number());
    gain = ml_biquad_forward_gain(&b);
    if (draw() % 8 == 0)
        bc.b0 = 1, bc.b1 = -2, bc.b2 = 1;
    answered(ml_biquad_input_offset(&bc, &offset));
    ml_biquad_set_input_offset(&bc, number());
    ADD(b), ADD(gain), ADD(offset), ADD(bc);

    ml_word w;
    fill(&w, sizeof w);
    w.f = draw() % 34;
    ml_word_clamp wc = {w.b0, w.b1, w.b2, w.a1, w.a2, w.f, (int32_t)draw(), (int32_t)draw(), (int32_t)draw()};
    ml_form1_wide fw;
    ml_form1_dither fd;
    fill(&fw, sizeof fw), fill(&fd, sizeof fd);
    answered(ml_wide(&w, &fw, in, n, out, m));
    ADD(fw), ADD(out);
    answered(ml_wide_clamp(&wc, &fw, in, n, out, m));
    ADD(fw), ADD(out);
    answered(ml_dither(&w, &fd, in, n, out, m));
    ADD(fd), ADD(out);
    answered(ml_dither_clamp(&wc, &fd, in, n, out, m));
    ADD(fd), ADD(out);

    ml_loop p = {(int32_t)draw(), (int32_t)draw(), (int32_t)draw()};
    ml_loop_state ps = {(int32_t)draw(), draw() % 4, (int32_t)draw(), (int32_t)draw(), 0, 0, (int32_t)draw()};
    fill(&ps.f0, 8), fill(&ps.f, 8);
    answered(ml_pll(&p, &ps, in, n, out, m));
    ADD(ps.x0), ADD(ps.wrap), ADD(ps.z0), ADD(ps.y0), ADD(ps.f0), ADD(ps.f), ADD(ps.y), ADD(out);
    valued(ml_pll_frequency(&ps)), valued(ml_pll_predict(&ps));
    ADD(ps.y);

    uint8_t bytes[2 * MOST];
    uint32_t rate = draw(), size = draw();
    uint64_t count = draw(), file = 44 + draw() % 8;
    fill(bytes, sizeof bytes);
    for (int i = 0; i < MOST; i++)
        in[i] = draw() % 400 ? (int16_t)draw() : (int32_t)draw();
    answered(ml_wav_read_part(bytes, draw() % (sizeof bytes + 1), out, m, &count));
    ADD(count), ADD(out);
    answered(ml_wav_write_part(in, n, bytes, 2 * m, &count));
    ADD(count), ADD(bytes);
    answered(ml_wav_write_header(draw() % 2 ? draw() : 48000, draw() % 4 ? 2 * (draw() % 4) : draw(), bytes, draw() % 4 ? sizeof bytes : draw() % 60));
    ADD(bytes);
    answered(ml_wav_read_header(bytes, draw() % 4 ? sizeof bytes : draw() % 60, file, &rate, &size));
    ADD(rate), ADD(size);

    ml_reciprocal r = {(uint8_t)(draw() % 34), (uint8_t)(draw() % 36), (uint8_t)(draw() % 66)};
    ml_reciprocal_state rs;
    fill(&rs, sizeof rs);
    answered(ml_rpll_at(&r, &rs, (int32_t)draw(), &y, &z));
    ADD(rs), ADD(y), ADD(z);
    answered(ml_rpll_missing(&r, &rs, &y, &z));
    ADD(rs), ADD(y), ADD(z);
    bool there[MOST];
    for (int i = 0; i < MOST; i++)
        there[i] = draw() % 2;
    int32_t frequencies[MOST];
    fill(frequencies, sizeof frequencies);
    answered(ml_rpll(&r, &rs, there, in, out, frequencies, n));
    ADD(rs), ADD(out), ADD(frequencies);
}

/* a store with a byte changed now and then; its records read, put elsewhere and moved */
static void run_settings(void)
{
    static const char *const texts[] = {
        "set\t1\ncic\tcrank\t3\t1\t63\nwdf\thalf\t2\ta1\t-1073741824\t536870912\nwdf\told\t1\te\t-1073741824\n",
        "set\t2\ncic\tcrank\t3\t1\t64\ndither\tf\t30\t1\t2\t3\t-4\t-5\t6\t-70\t70\nwdf\thalf\t2\ta1\t-1073741824\t536870912\n",
        "set\t1\n",
        "set\t2\n",
    };
    uint8_t text[200], out[400];
    uint64_t n = 0, count = draw(), m = draw() % 4 ? sizeof out : draw() % 150;
    for (const char *c = texts[draw() % 4]; *c; c++)
        text[n++] = (uint8_t)*c;
    if (draw() % 4 == 0)
        text[draw() % n] = (uint8_t)(draw() % 4 ? '0' + draw() % 10 : draw() % 128);
    uint32_t form = draw() % 8 ? ml_settings_form(text, n) : draw() % 4;
    uint64_t line = ml_settings_line(form, text, n);
    ADD(form), ADD(line);
    fill(out, sizeof out);
    answered(ml_settings_count(form, text, n, &count));
    ADD(count);
    ml_setting record = {{0}, 0, 0, 0, 0, 0, 0, 0, 0, {0}};
    answered(ml_settings_read(form, text, n, draw() % 5, &record));
    ml_cic filter = {0};
    ml_lattice lattice = {0};
    if (record.kind == 0)
        answered(ml_cic_of(form, &record, &filter));
    if (record.kind == 1)
        answered(ml_wdf_of(form, &record, &lattice));
    ADD(filter.order), ADD(filter.rate), ADD(lattice.sections), ADD(lattice.architecture), ADD(lattice.a);
    if (record.length == 0)
        record.length = 1, record.name[0] = (uint8_t)('a' + draw() % 27), record.kind = draw() % 3, record.order = draw() % 10, record.delay = draw() % 10,
        record.rate = draw() % 70000, record.sections = draw() % 9, record.architecture = draw() % 65536, record.f = draw() % 33;
    ADD(record.name), ADD(record.length), ADD(record.kind), ADD(record.order), ADD(record.delay), ADD(record.rate), ADD(record.sections);
    ADD(record.architecture), ADD(record.f), ADD(record.a);
    answered(ml_settings_put(form, text, n, draw() % 70, &record, out, m, &count));
    ADD(out), ADD(count);
    answered(ml_settings_put(form, text, n, draw() % 4, &record, out, m, &count));
    ADD(out), ADD(count);
    answered(ml_settings_forth(text, n, out, m, &count));
    ADD(out), ADD(count);
    answered(ml_settings_back(text, n, out, m, &count));
    ADD(out), ADD(count);
}

int main(void)
{
    for (int turn = 0; turn < 5000; turn++)
        run_cic(), run_cic64(), run_others(), run_others(), run_settings();
    say("calls ", calls), say(", refused ", refused), say(", sum ", sum), say("\n", 0);
    return 0;
}
