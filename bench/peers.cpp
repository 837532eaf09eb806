// Times the library beside OpenCASCADE's two samplers of curves, in one program and by turns.
//
// GCPnts_TangentialDeflection takes a sag and an angle, as the library does; GCPnts_QuasiUniformDeflection takes a sag alone.
// Each case is the same curves for all, with the same absolute sag and the same angle. Curves, adaptors, tables and buffers
// are made before the clock starts. Timed are: cs_draw_over, over tables that were checked once; the same with a relative
// deflection that comes to the same sag; cs_draw, which checks the tables at each draw; and making each sampler's object,
// which computes its points, and unmaking it. Each figure is the least of many rounds, so that a busy machine does not show.
//
// The chains are then held against formulas of the curves that stand here and belong to neither side: the largest distance
// from the curve, the error of the cut length, the largest turn from chord to chord. Nothing rests on what a sampler says of
// its own chain but the parameters of its points.
#include "../bindings/c/cornsunset.h"

#include <GCPnts_QuasiUniformDeflection.hxx>
#include <GCPnts_TangentialDeflection.hxx>
#include <Geom_BSplineCurve.hxx>
#include <Geom_Circle.hxx>
#include <Geom_Ellipse.hxx>
#include <Geom_Line.hxx>
#include <Geom_Parabola.hxx>
#include <GeomAdaptor_Curve.hxx>
#include <Standard_Version.hxx>
#include <TColStd_Array1OfInteger.hxx>
#include <TColStd_Array1OfReal.hxx>
#include <TColgp_Array1OfPnt.hxx>

#include <algorithm>
#include <chrono>
#include <cmath>
#include <cstdio>
#include <cstdlib>
#include <functional>
#include <memory>
#include <string>
#include <vector>

static const double PI = 3.14159265358979323846;
static const double DEGREES = PI / 180;

static std::string text(const char *format, double x) {
    char buffer[64];
    std::snprintf(buffer, sizeof buffer, format, x);
    return buffer;
}

[[noreturn]] static void stop(const std::string &why) {
    std::fprintf(stderr, "%s\n", why.c_str());
    std::exit(1);
}

// ---- vectors

struct Vec {
    double x, y, z;
};

static Vec operator+(Vec a, Vec b) { return {a.x + b.x, a.y + b.y, a.z + b.z}; }
static Vec operator-(Vec a, Vec b) { return {a.x - b.x, a.y - b.y, a.z - b.z}; }
static Vec operator*(Vec a, double s) { return {a.x * s, a.y * s, a.z * s}; }
static double dot(Vec a, Vec b) { return a.x * b.x + a.y * b.y + a.z * b.z; }
static double norm(Vec a) { return std::sqrt(dot(a, a)); }
static Vec cross(Vec a, Vec b) { return {a.y * b.z - a.z * b.y, a.z * b.x - a.x * b.z, a.x * b.y - a.y * b.x}; }

// ---- curves, by their true formulas, over the library's parameter

enum Kind { LINE = 1, CIRCLE, ELLIPSE, PARABOLA, POLYLINE }; // as in cornsunset.h

struct Curve {
    Kind kind;
    std::vector<Vec> points; // a line's origin and direction, a conic's origin (in the plane z, from the x axis), a polyline's own
    double p, q;             // radius; semi-axes, the greater first; focal distance
    double lo, hi;
};

static Vec at(const Curve &c, double t) {
    const Vec o = c.points[0];
    switch (c.kind) {
    case LINE: return o + c.points[1] * t;
    case CIRCLE: return o + Vec{c.p * std::cos(t), c.p * std::sin(t), 0};
    case ELLIPSE: return o + Vec{c.p * std::cos(t), c.q * std::sin(t), 0};
    case PARABOLA: return o + Vec{c.p * t * t, 2 * c.p * t, 0};
    default: {
        const size_t i = std::min((size_t)std::max(t, 0.0), c.points.size() - 2);
        return c.points[i] + (c.points[i + 1] - c.points[i]) * (t - (double)i);
    }
    }
}

// Simpson's rule over so many panels that its error is below 1e-12 of the length for these ellipses.
static double ellipse_length(const Curve &c) {
    const int panels = 1 << 13;
    const long double h = ((long double)c.hi - c.lo) / (2 * panels);
    const auto speed = [&](int i) {
        const long double t = c.lo + h * i, s = std::sin(t), k = std::cos(t);
        return std::sqrt(c.p * c.p * s * s + c.q * c.q * k * k);
    };
    long double sum = 0;
    for (int i = 0; i < 2 * panels; i += 2) {
        sum += speed(i) + 4 * speed(i + 1) + speed(i + 2);
    }
    return (double)(sum * h / 3);
}

static double true_length(const Curve &c) {
    switch (c.kind) {
    case LINE: return norm(c.points[1]) * (c.hi - c.lo);
    case CIRCLE: return c.p * (c.hi - c.lo);
    case ELLIPSE: return ellipse_length(c);
    case PARABOLA: {
        const auto f = [&](double t) { return c.p * (t * std::sqrt(1 + t * t) + std::asinh(t)); };
        return f(c.hi) - f(c.lo);
    }
    default: {
        double sum = 0;
        for (size_t i = 1; i < c.points.size(); i++) {
            sum += norm(c.points[i] - c.points[i - 1]);
        }
        return sum;
    }
    }
}

// A line or a polyline turns by itself or not at all: no chain has a say in it.
static bool is_smooth(const Curve &c) { return c.kind == CIRCLE || c.kind == ELLIPSE || c.kind == PARABOLA; }

// ---- the cases

struct Case {
    std::string name;
    double sag, angle;
    std::vector<Curve> curves;
    std::vector<size_t> edges; // the curve of each edge
    size_t floats;             // of each of the library's two buffers, which it clears: no more than the chain needs
};

static Case many(std::string name, double sag, double angle, std::vector<Curve> curves) {
    Case c{std::move(name), sag, angle, std::move(curves), {}, 0};
    for (size_t i = 0; i < c.curves.size(); i++) {
        c.edges.push_back(i);
    }
    return c;
}

static Case one(std::string name, double sag, double angle, Curve curve) { return many(std::move(name), sag, angle, {std::move(curve)}); }

// A whole circle on which the angle alone asks for so many points: the sag is a quarter above the one that the angle leaves.
static Case circle(std::string name, int points) {
    const double angle = 2 * PI / (points - 1.5), radius = 50;
    return one(std::move(name), 1.25 * radius * (1 - std::cos(angle / 2)), angle, {CIRCLE, {{1, 2, 3}}, radius, 0, 0, 2 * PI});
}

static Curve ellipse(double p, double q) { return {ELLIPSE, {{1, 2, 3}}, p, q, 0, 2 * PI}; }

static Curve polyline(const std::vector<Vec> &points) { return {POLYLINE, points, 0, 0, 0, (double)points.size() - 1}; }

// An arc of n points.
static Curve sampled_arc(int n) {
    std::vector<Vec> points;
    for (int i = 0; i < n; i++) {
        const double t = 2.0 * i / (n - 1);
        points.push_back({100 * std::cos(t), 100 * std::sin(t), 0});
    }
    return polyline(points);
}

// Teeth: every point is a corner, and none can be spared. Even ones are as high as each other: the curve's middle lies on
// the chord from end to end, and the first and the last tooth point the same way.
static Curve teeth(int n, bool even) {
    std::vector<Vec> points;
    for (int i = 0; i < n; i++) {
        points.push_back({(double)i, i % 2 == 0 ? 0.0 : even ? 1.0 : 1.0 + 0.3 * (i * i % 7), 0});
    }
    return polyline(points);
}

static Curve five_points(double x) { return polyline({{x, 0, 0}, {x + 1, 0.2, 0}, {x + 2, 0.1, 0}, {x + 3, 0.4, 0}, {x + 4, 0, 0}}); }

static Case hundred_arcs() {
    std::vector<Curve> arcs;
    for (int i = 0; i < 100; i++) {
        arcs.push_back({CIRCLE, {{20.0 * i, 0, 0}}, 10, 0, 0, PI});
    }
    return many("100 arcs as edges, per edge", 0.01, 8 * DEGREES, arcs);
}

// The part of draw.rs: lines, arcs, ellipses and polylines of five points, 4,000 rows, 10,000 edges. The sag is what the
// default options leave an edge of this size in a part of 480.
static Case part() {
    std::vector<Curve> rows;
    for (int i = 0; i < 4000; i++) {
        const double x = i * 0.25;
        switch (i % 4) {
        case 0: rows.push_back({LINE, {{x, 0, 0}, {1, 0.5, 0}}, 0, 0, 0, 10}); break;
        case 1: rows.push_back({CIRCLE, {{x, 1, 0}}, 2.0 + i % 7, 0, 0.1, 1.7}); break;
        case 2: rows.push_back({ELLIPSE, {{x, 2, 0}}, 6, 4, 0.1, 1.7}); break;
        default: rows.push_back(five_points(x));
        }
    }
    Case c{"part of 10,000 edges, per edge", 0.024, 8 * DEGREES, std::move(rows), {}, 0};
    for (size_t i = 0; i < 10000; i++) {
        c.edges.push_back(i * 7 % c.curves.size());
    }
    return c;
}

static std::vector<Case> cases() {
    return {
        one("line", 0.128, 8 * DEGREES, {LINE, {{0, 0, 0}, {1, 0.5, 0}}, 0, 0, 0, 50}),
        one("short arc", 0.128, 8 * DEGREES, {CIRCLE, {{1, 2, 3}}, 10, 0, 0, 100 * DEGREES}),
        one("hole", 0.024, 8 * DEGREES, {CIRCLE, {{1, 2, 3}}, 2, 0, 0, 2 * PI}),
        circle("circle of 13 points", 13),
        circle("circle of 2,000 points", 2000),
        one("circle, sag-bound", 0.01, 8 * DEGREES, {CIRCLE, {{1, 2, 3}}, 50, 0, 0, 2 * PI}),
        one("ellipse 40 × 25, sag-bound", 0.01, 8 * DEGREES, ellipse(40, 25)),
        one("ellipse 40 × 25, angle-bound", 0.5, 8 * DEGREES, ellipse(40, 25)),
        one("ellipse 40 × 4, sag-bound", 0.01, 30 * DEGREES, ellipse(40, 4)),
        one("ellipse 40 × 4, angle-bound", 0.5, 8 * DEGREES, ellipse(40, 4)),
        one("parabola, sag-bound", 0.01, 8 * DEGREES, {PARABOLA, {{0, 0, 0}}, 5, 0, -4, 4}),
        one("parabola, angle-bound", 0.5, 8 * DEGREES, {PARABOLA, {{0, 0, 0}}, 5, 0, -4, 4}),
        one("polyline of 5 points", 0.024, 8 * DEGREES, five_points(0)),
        one("polyline of 100 even teeth", 0.128, 8 * DEGREES, teeth(100, true)),
        one("polyline of 100 uneven teeth", 0.128, 8 * DEGREES, teeth(100, false)),
        one("polyline of 1,000 points, an arc", 0.128, 8 * DEGREES, sampled_arc(1000)),
        hundred_arcs(),
        part(),
    };
}

// ---- chains and what they are worth

struct Point {
    Vec at;
    double t;
};

typedef std::vector<Point> Chain;

// All the edges' chains together.
struct Worth {
    size_t points = 0;
    double distance = 0; // the largest
    double length = 0, true_length = 0;
    double turn = 0; // the largest, over smooth curves
    bool smooth = false;

    double error() const { return (length - true_length) / true_length; }
};

static double distance_to_segment(Vec p, Vec a, Vec b) {
    const Vec chord = b - a;
    const double square = dot(chord, chord);
    const double s = square > 0 ? std::min(std::max(dot(p - a, chord) / square, 0.0), 1.0) : 0;
    return norm(p - (a + chord * s));
}

// The largest distance of the curve's points between two of the chain's from the chord there.
static double span_distance(const Curve &c, Point a, Point b) {
    const int places = 128; // even, so that the middle is one
    double most = 0;
    const auto look = [&](double t) { most = std::max(most, distance_to_segment(at(c, t), a.at, b.at)); };
    for (int i = 0; i <= places; i++) {
        look(a.t + (b.t - a.t) * i / places);
    }
    if (c.kind == POLYLINE) {
        // between corners the distance is convex: the corners have its largest
        for (double t = std::ceil(a.t); t <= b.t; t++) {
            look(t);
        }
    }
    return most;
}

static double turn(Vec u, Vec v) { return std::atan2(norm(cross(u, v)), dot(u, v)); }

static void weigh(Worth &w, const Curve &c, double length, const Chain &chain) {
    w.points += chain.size();
    w.true_length += length;
    w.smooth |= is_smooth(c);
    // the whole curve: a chain that begins late or ends early lies off it by so much
    w.distance = std::max({w.distance, norm(at(c, c.lo) - chain.front().at), norm(at(c, c.hi) - chain.back().at)});
    for (size_t i = 1; i < chain.size(); i++) {
        w.length += norm(chain[i].at - chain[i - 1].at);
        w.distance = std::max(w.distance, span_distance(c, chain[i - 1], chain[i]));
        if (i > 1 && is_smooth(c)) {
            w.turn = std::max(w.turn, turn(chain[i - 1].at - chain[i - 2].at, chain[i].at - chain[i - 1].at));
        }
    }
}

static std::vector<double> true_lengths(const Case &c) {
    std::vector<double> all;
    for (const Curve &curve : c.curves) {
        all.push_back(true_length(curve));
    }
    return all;
}

static Worth weigh_all(const Case &c, const std::vector<double> &lengths, const std::function<Chain(size_t)> &chain_of_edge) {
    Worth w;
    for (size_t e = 0; e < c.edges.size(); e++) {
        weigh(w, c.curves[c.edges[e]], lengths[c.edges[e]], chain_of_edge(e));
    }
    return w;
}

// ---- the library

class Library {
  public:
    explicit Library(const Case &c) {
        // no length of 0 beside a null pointer
        parts.reserve(1);
        ranges.reserve(1);
        std::vector<uint32_t> starts, ends;
        for (const Curve &curve : c.curves) {
            add_row(curve);
            starts.push_back(add_point(at(curve, curve.lo)));
            ends.push_back(add_point(at(curve, curve.hi)));
        }
        // a box so large that nothing is repaired
        const uint32_t low = add_point({-1e4, -1e4, -1e4}), high = add_point({1e4, 1e4, 1e4});
        for (size_t i : c.edges) {
            const Curve &curve = c.curves[i];
            edges.push_back({(uint32_t)i, starts[i], ends[i], 1, curve.lo, curve.hi, 1e-6, low, high});
        }
        tables = {points.data(), points.size(), curves.data(), curves.size(), reals.data(), reals.size(),
                  parts.data(),  parts.size(),  ranges.data(), ranges.size()};
        // A relative deflection is at least an eighth of the one for the whole part, and that is what an edge below 4,096 gets
        // in a part of 131,072: the sag itself, bit for bit.
        const double scale = 131072;
        absolute = {c.sag, cs_angle_radians(c.angle), 0, 1, 12, scale};
        relative = {8 * c.sag / scale, cs_angle_radians(c.angle), 1, 1, 12, scale};
        first.resize(c.floats);
        second.resize(c.floats);
    }
    Library(const Library &) = delete;

    void check() {
        if (cs_check_tables(&tables) != 0) {
            stop("the tables are refused");
        }
    }
    uint32_t draw(size_t e) {
        return cs_draw(&tables, &edges[e], &absolute, first.data(), first.size(), second.data(), second.size(), &way, &count);
    }
    // check() has accepted the tables.
    uint32_t draw_over(size_t e) { return draw_over(e, absolute); }
    uint32_t draw_relative(size_t e) { return draw_over(e, relative); }

    // The points of an edge that is drawn and not repaired; else 0.
    size_t points_of(size_t e) { return draw(e) == 0 && way == CS_AS_DRAWN ? count : 0; }

    // The same chain by all three ways.
    Chain chain(size_t e) {
        if (points_of(e) == 0) {
            stop("an edge is not drawn");
        }
        const std::vector<double> drawn(first);
        if (draw_over(e) != 0 || drawn != first || draw_relative(e) != 0 || drawn != first) {
            stop("the library's chains differ");
        }
        Chain chain;
        for (size_t i = 0; i < count; i++) {
            const double *p = &first[4 * i];
            chain.push_back({{p[0], p[1], p[2]}, p[3]});
        }
        return chain;
    }

  private:
    uint32_t draw_over(size_t e, const cs_options &options) {
        return cs_draw_over(&tables, &edges[e], &options, first.data(), first.size(), second.data(), second.size(), &way, &count);
    }
    uint32_t add_point(Vec p) {
        points.insert(points.end(), {p.x, p.y, p.z});
        return (uint32_t)(points.size() / 3 - 1);
    }
    void add_row(const Curve &c) {
        const uint32_t first_point = (uint32_t)(points.size() / 3);
        for (Vec p : c.points) {
            add_point(p);
        }
        if (is_smooth(c)) {
            add_point({0, 0, 1});
            add_point({1, 0, 0});
        }
        curves.insert(curves.end(), {(uint32_t)c.kind, first_point, (uint32_t)(points.size() / 3) - first_point});
        reals.insert(reals.end(), {c.p, c.q});
    }

    std::vector<double> points, reals, ranges, first, second;
    std::vector<uint32_t> curves, parts;
    std::vector<cs_edge> edges;
    cs_tables tables;
    cs_options absolute, relative;
    uint32_t way = 0;
    size_t count = 0;
};

// The points of all curves' edges in buffers of so many floats; 0 where one of them is not drawn.
static size_t points_in(Case &c, size_t floats) {
    c.floats = floats;
    Library library(c);
    size_t sum = 0;
    for (size_t e = 0; e < c.curves.size(); e++) { // the first edges go over all curves
        const size_t points = library.points_of(e);
        if (points == 0) {
            return 0;
        }
        sum += points;
    }
    return sum;
}

// The least floats with which all edges are drawn as in large buffers.
static size_t least_floats(Case &c) {
    size_t lo = 4, hi = 65536;
    const size_t wanted = points_in(c, hi);
    if (wanted == 0) {
        stop(c.name + ": an edge is not drawn");
    }
    while (lo + 4 < hi) {
        const size_t middle = (lo + hi) / 8 * 4;
        (points_in(c, middle) == wanted ? hi : lo) = middle;
    }
    return hi;
}

// ---- OpenCASCADE

static gp_Pnt point(Vec p) { return gp_Pnt(p.x, p.y, p.z); }
static Vec vec(const gp_Pnt &p) { return {p.X(), p.Y(), p.Z()}; }

static Handle(Geom_Curve) bspline(const std::vector<Vec> &points) {
    const int n = (int)points.size();
    TColgp_Array1OfPnt poles(1, n);
    TColStd_Array1OfReal knots(1, n);
    TColStd_Array1OfInteger multiplicities(1, n);
    for (int i = 1; i <= n; i++) {
        poles(i) = point(points[i - 1]);
        knots(i) = i - 1;
        multiplicities(i) = i == 1 || i == n ? 2 : 1;
    }
    return new Geom_BSplineCurve(poles, knots, multiplicities, 1);
}

static Handle(Geom_Curve) geometry(const Curve &c) {
    const gp_Ax2 axes(point(c.points[0]), gp_Dir(0, 0, 1), gp_Dir(1, 0, 0));
    switch (c.kind) {
    case LINE: return new Geom_Line(point(c.points[0]), gp_Dir(c.points[1].x, c.points[1].y, c.points[1].z));
    case CIRCLE: return new Geom_Circle(axes, c.p);
    case ELLIPSE: return new Geom_Ellipse(axes, c.p, c.q);
    case PARABOLA: return new Geom_Parabola(axes, c.p);
    default: return bspline(c.points);
    }
}

// OpenCASCADE's parameter by the library's: a line's is its length, a parabola's is its y.
static double parameter_scale(const Curve &c) {
    switch (c.kind) {
    case LINE: return norm(c.points[1]);
    case PARABOLA: return 2 * c.p;
    default: return 1;
    }
}

struct Peer {
    std::unique_ptr<GeomAdaptor_Curve> adaptor;
    GeomAbs_Shape continuity; // which QuasiUniformDeflection wants to be told
    double scale;
};

static std::vector<Peer> peers(const Case &c) {
    std::vector<Peer> all;
    for (const Curve &curve : c.curves) {
        const double s = parameter_scale(curve);
        all.push_back({std::make_unique<GeomAdaptor_Curve>(geometry(curve), curve.lo * s, curve.hi * s),
                       curve.kind == POLYLINE ? GeomAbs_C0 : GeomAbs_C1, s});
    }
    return all;
}

static GCPnts_TangentialDeflection tangential(const Peer &p, const Case &c) { return {*p.adaptor, c.angle, c.sag}; }

static GCPnts_QuasiUniformDeflection quasi_uniform(const Peer &p, const Case &c) { return {*p.adaptor, c.sag, p.continuity}; }

template <class Sampler> static Chain chain(const Sampler &s, const Peer &p) {
    Chain chain;
    for (int i = 1; i <= s.NbPoints(); i++) {
        chain.push_back({vec(s.Value(i)), s.Parameter(i) / p.scale});
    }
    return chain;
}

// ---- timing

// The compiler may not drop what was computed.
template <class T> static void keep(const T &x) { asm volatile("" : : "g"(&x) : "memory"); }

struct Timed {
    std::function<void()> call;
    size_t edges; // that one call draws
    double ns;    // an edge
};

// Nanoseconds an edge of each, by turns, the least over the rounds.
static void time_by_turns(std::vector<Timed> &all) {
    const int rounds = 60;
    const double least_round = 400000;
    const auto run = [](const Timed &t, size_t times) {
        const auto start = std::chrono::steady_clock::now();
        for (size_t i = 0; i < times; i++) {
            t.call();
        }
        return (double)std::chrono::duration_cast<std::chrono::nanoseconds>(std::chrono::steady_clock::now() - start).count();
    };
    std::vector<size_t> times;
    for (Timed &t : all) {
        size_t n = 1;
        while (run(t, n) < least_round) {
            n *= 2;
        }
        times.push_back(n);
        t.ns = INFINITY;
    }
    for (int round = 0; round < rounds; round++) {
        for (size_t i = 0; i < all.size(); i++) {
            all[i].ns = std::min(all[i].ns, run(all[i], times[i]) / (double)(times[i] * all[i].edges));
        }
    }
}

// ---- the tables

struct Row {
    std::string name;
    double sag, angle;
    Worth ours, tangential, quasi;
    double over_ns, relative_ns, draw_ns, tangential_ns, quasi_ns;
};

static Row measure(Case &c) {
    c.floats = least_floats(c);
    Library library(c);
    const std::vector<Peer> all = peers(c);
    const auto peer = [&](size_t e) -> const Peer & { return all[c.edges[e]]; };
    const std::vector<double> lengths = true_lengths(c);
    library.check();
    const Worth ours = weigh_all(c, lengths, [&](size_t e) { return library.chain(e); });
    const Worth tangentials = weigh_all(c, lengths, [&](size_t e) { return chain(tangential(peer(e), c), peer(e)); });
    const Worth quasis = weigh_all(c, lengths, [&](size_t e) { return chain(quasi_uniform(peer(e), c), peer(e)); });

    const size_t edges = c.edges.size();
    const auto each = [&](size_t n, auto draw) {
        const auto call = [n, draw] {
            for (size_t e = 0; e < n; e++) {
                draw(e);
            }
        };
        return Timed{call, n, 0};
    };
    // many edges: the check of their tables, once for all of them, is part of their time
    const bool checks = edges > 1;
    const auto check_first = [&](size_t e) {
        if (checks && e == 0) {
            library.check();
        }
    };
    std::vector<Timed> timed = {
        each(edges, [&](size_t e) { check_first(e), keep(library.draw_over(e)); }),
        each(edges, [&](size_t e) { check_first(e), keep(library.draw_relative(e)); }),
        each(std::min(edges, (size_t)100), [&](size_t e) { keep(library.draw(e)); }), // each checks all the tables
        each(edges, [&](size_t e) { keep(tangential(peer(e), c)); }),
        each(edges, [&](size_t e) { keep(quasi_uniform(peer(e), c)); }),
    };
    time_by_turns(timed);
    return {c.name, c.sag, c.angle, ours, tangentials, quasis, timed[0].ns, timed[1].ns, timed[2].ns, timed[3].ns, timed[4].ns};
}

// What is no more than the rounding of coordinates counts as nothing.
static double rounded(double x, double nothing) { return std::abs(x) < nothing ? 0 : x; }

static double distance_of(const Worth &w) { return rounded(w.distance, 1e-11); }
static double error_of(const Worth &w) { return rounded(w.error(), 1e-13); }

// 1 in 1,000 is left for the figures' own rounding, as where the sag or the angle is met exactly.
static bool above(double x, double limit) { return x > limit * 1.001; }

static bool leaves_sag(const Row &r, const Worth &w) { return above(distance_of(w), r.sag); }
static bool leaves_angle(const Row &r, const Worth &w) { return above(w.turn, r.angle); }

enum Better { SAME, OURS, ITS, EACH };

struct Verdict {
    Better better;
    std::string words;
};

// -1 where ours is the smaller by more than 1 %, 1 where its is, else 0.
static int compared(double ours, double its) { return its > ours * 1.01 ? -1 : ours > its * 1.01 ? 1 : 0; }

// Which chain is the better: keeping the sag and the angle counts first, then the errors. The angle is left out beside a
// sampler that is not told it.
static Verdict verdict(const Row &r, const Worth &its, bool knows_angle) {
    const auto keeps_angle = [&](const Worth &w) { return !knows_angle || !leaves_angle(r, w); };
    if (leaves_sag(r, r.ours) != leaves_sag(r, its)) {
        return leaves_sag(r, its) ? Verdict{OURS, "only ours keeps the sag"} : Verdict{ITS, "only its keeps the sag"};
    }
    if (keeps_angle(r.ours) != keeps_angle(its)) {
        return keeps_angle(r.ours) ? Verdict{OURS, "only ours keeps the angle"} : Verdict{ITS, "only its keeps the angle"};
    }
    const std::string both = leaves_sag(r, its)                         ? "neither keeps the sag; "
                             : !keeps_angle(r.ours) && !keeps_angle(its) ? "neither keeps the angle; "
                                                                         : "";
    const int distance = compared(distance_of(r.ours), distance_of(its));
    const int length = compared(std::abs(error_of(r.ours)), std::abs(error_of(its)));
    if (distance == 0 && length == 0) {
        return {SAME, both + "same"};
    }
    const double more = 100.0 * ((double)its.points / (double)r.ours.points - 1);
    const std::string points = its.points == r.ours.points ? "as many points"
                               : more > 0                  ? text("it has %.0f %% more points", more)
                                                           : text("it has %.0f %% fewer points", -more);
    if (distance * length < 0) {
        return {EACH, both + (distance < 0 ? "ours is nearer, its length is better; " : "its is nearer, our length is better; ") + points};
    }
    return distance + length < 0 ? Verdict{OURS, both + "ours has the smaller error; " + points}
                                 : Verdict{ITS, both + "its has the smaller error; " + points};
}

static Verdict beside_tangential(const Row &r) { return verdict(r, r.tangential, true); }

static void print_time(const Row &r) {
    const auto ratio = [](double it, double ours) { return text("%.2f", it / ours) + (it < ours ? " **behind**" : ""); };
    std::printf("| %s | %.0f | %.0f | %.0f | %.0f | %.0f | %s | %s | %s | %s |\n", r.name.c_str(), r.over_ns, r.relative_ns, r.draw_ns,
                r.tangential_ns, r.quasi_ns, ratio(r.tangential_ns, r.over_ns).c_str(), ratio(r.tangential_ns, r.relative_ns).c_str(),
                ratio(r.tangential_ns, r.draw_ns).c_str(), ratio(r.quasi_ns, r.over_ns).c_str());
}

static void print_chain(const Row &r, const char *by, const Worth &w, const std::string &name, const std::string &words) {
    const double distance = distance_of(w), ppm = error_of(w) * 1e6;
    const char *mark = " **above**";
    const std::string far = distance == 0 ? "0" : text("%.3g", distance) + text(" (%.2f)", distance / r.sag) + (leaves_sag(r, w) ? mark : "");
    const std::string error = ppm == 0 ? "0" : text(std::abs(ppm) < 100 ? "%.3g" : "%.0f", ppm);
    const std::string turns = w.smooth ? text("%.2f°", w.turn / DEGREES) + (leaves_angle(r, w) ? mark : "") : "–";
    std::printf("| %s | %s | %zu | %s | %s | %s | %s |\n", name.c_str(), by, w.points, far.c_str(), error.c_str(), turns.c_str(),
                words.c_str());
}

static void print_chains(const Row &r) {
    print_chain(r, "ours", r.ours, r.name + text("; sag %.3g", r.sag) + text(", angle %.3g°", r.angle / DEGREES), "");
    print_chain(r, "TD", r.tangential, "", beside_tangential(r).words);
    print_chain(r, "QUD", r.quasi, "", verdict(r, r.quasi, false).words);
}

// A line with the names of the rows that a test holds of.
static void say(const std::vector<Row> &rows, const char *what, const std::function<bool(const Row &)> &test) {
    std::string names;
    for (const Row &r : rows) {
        if (test(r)) {
            names += (names.empty() ? "" : "; ") + r.name;
        }
    }
    std::printf("- %s: %s.\n", what, names.empty() ? "none" : names.c_str());
}

static void summary(const std::vector<Row> &rows) {
    say(rows, "Behind TD in time by `cs_draw_over`", [](const Row &r) { return r.tangential_ns < r.over_ns; });
    say(rows, "Behind TD in time with a relative deflection", [](const Row &r) { return r.tangential_ns < r.relative_ns; });
    say(rows, "Behind TD in time by `cs_draw`", [](const Row &r) { return r.tangential_ns < r.draw_ns; });
    say(rows, "TD's chain is better", [](const Row &r) { return beside_tangential(r).better == ITS; });
    say(rows, "Ours is better than TD's", [](const Row &r) { return beside_tangential(r).better == OURS; });
    say(rows, "Ours leaves the sag", [](const Row &r) { return leaves_sag(r, r.ours); });
    say(rows, "Ours leaves the angle", [](const Row &r) { return leaves_angle(r, r.ours); });
    say(rows, "TD's leaves the sag", [](const Row &r) { return leaves_sag(r, r.tangential); });
    say(rows, "TD's leaves the angle", [](const Row &r) { return leaves_angle(r, r.tangential); });
    say(rows, "QUD's leaves the sag", [](const Row &r) { return leaves_sag(r, r.quasi); });
}

// With a word, only the cases whose name has it.
int main(int argc, char **argv) {
    const std::string wanted = argc > 1 ? argv[1] : "";
    std::printf("OpenCASCADE %s; ns an edge:\n\n", OCC_VERSION_COMPLETE);
    std::printf("| case | draw_over | relative | draw | TD | QUD | TD / draw_over | TD / relative | TD / draw | QUD / draw_over |\n");
    std::printf("|---|---|---|---|---|---|---|---|---|---|\n");
    std::vector<Row> rows;
    for (Case &c : cases()) {
        if (c.name.find(wanted) != std::string::npos) {
            rows.push_back(measure(c));
            print_time(rows.back());
            std::fflush(stdout);
        }
    }
    std::printf("\nThe chains:\n\n");
    std::printf("| case | by | points | distance (of the sag) | cut length, ppm | turn | beside ours |\n");
    std::printf("|---|---|---|---|---|---|---|\n");
    for (const Row &r : rows) {
        print_chains(r);
    }
    std::printf("\n");
    summary(rows);
}
