// The chart: time against cells, both on logarithmic scales, as an SVG drawing with a panel for each family.
//
// All panels have the same scales. Lines differ in colour, in dashes and in the shape of their points.
#ifndef BENCH_CHART_HPP
#define BENCH_CHART_HPP

#include <cmath>

#include "report.hpp"

namespace chart {

constexpr double PANEL_WIDTH = 270, PANEL_HEIGHT = 215;
constexpr double LEFT = 68, RIGHT = 18, TOP = 26, BOTTOM = 46;
constexpr double HEAD = 84;
constexpr size_t COLUMNS = 4;

// How a line looks.
struct Style {
    const char *name, *colour, *dashes;
    enum { Circle, Square, Triangle, Cross } mark;
};

const Style PAIR = {"pair (list to pairing)", "#0b5394", "none", Style::Circle};
const Style REDUCE = {"reduce (list to slip and short list)", "#38761d", "2 3", Style::Triangle};
const Style LIFT = {"lift (short pairing to pairing)", "#741b47", "9 3 2 3", Style::Cross};
const Style LEMON = {"LEMON (graph to matching)", "#b45f06", "7 3", Style::Square};

// The scales that all panels share.
struct Scales {
    double first_cells, last_cells, least, most;

    double x(double cells) const {
        const double part = std::log(cells / first_cells) / std::log(last_cells / first_cells);
        return LEFT + part * (PANEL_WIDTH - LEFT - RIGHT);
    }

    double y(double time) const {
        const double part = std::log(time / least) / std::log(most / least);
        return PANEL_HEIGHT - BOTTOM - part * (PANEL_HEIGHT - TOP - BOTTOM);
    }
};

// A place in the drawing as an attribute's text.
inline std::string at(double place) { return decimals(place, 1); }

inline std::string text(double x, double y, const char *attributes, const std::string &words) {
    return "<text x=\"" + at(x) + "\" y=\"" + at(y) + "\" " + attributes + ">" + words + "</text>\n";
}

inline std::string line(double x1, double y1, double x2, double y2, const char *attributes) {
    return "<line x1=\"" + at(x1) + "\" y1=\"" + at(y1) + "\" x2=\"" + at(x2) + "\" y2=\"" + at(y2) + "\" " +
           attributes + "/>\n";
}

// The mark of a line at one point.
inline std::string mark(const Style &style, double x, double y) {
    const std::string paint = std::string("fill=\"white\" stroke-width=\"1.5\" stroke=\"") + style.colour + "\"/>\n";
    if (style.mark == Style::Circle)
        return "<circle cx=\"" + at(x) + "\" cy=\"" + at(y) + "\" r=\"3.2\" fill=\"" + style.colour + "\"/>\n";
    if (style.mark == Style::Square)
        return "<rect x=\"" + at(x - 3) + "\" y=\"" + at(y - 3) + "\" width=\"6\" height=\"6\" " + paint;
    if (style.mark == Style::Cross)
        return "<path d=\"M" + at(x - 3) + " " + at(y - 3) + "l6 6m0 -6l-6 6\" " + paint;
    return "<path d=\"M" + at(x) + " " + at(y - 4.5) + "l5 8h-10z\" " + paint;
}

// A line through points, with their marks.
inline std::string points(const Style &style, const std::vector<std::pair<double, double>> &places) {
    std::string path, marks;
    for (const auto &[x, y] : places) {
        path += at(x) + "," + at(y) + " ";
        marks += mark(style, x, y);
    }
    return "<polyline points=\"" + path + "\" fill=\"none\" stroke-width=\"1.8\" stroke=\"" + style.colour +
           "\" stroke-dasharray=\"" + style.dashes + "\"/>\n" + marks;
}

// The median times of one call over the rows of a family.
inline std::string curve(const Style &style, const Scales &scales, const std::vector<Row> &rows, Times Row::*call) {
    std::vector<std::pair<double, double>> places;
    for (const Row &row : rows)
        if (!(row.*call).none()) places.push_back({scales.x(double(row.cells)), scales.y((row.*call).median())});
    return places.empty() ? "" : points(style, places);
}

// The frame of a panel with its scales' lines and labels.
inline std::string frame(const Scales &scales, const std::vector<Row> &rows) {
    std::string out;
    for (double time = scales.least; time <= scales.most * 1.01; time *= 10) {
        out += line(LEFT, scales.y(time), PANEL_WIDTH - RIGHT, scales.y(time), "stroke=\"#d0d0d0\"");
        out += text(LEFT - 5, scales.y(time) + 4, "text-anchor=\"end\"", whole(uint64_t(time + 0.5)));
    }
    for (const Row &row : rows) {
        const double x = scales.x(double(row.cells));
        out += line(x, PANEL_HEIGHT - BOTTOM, x, PANEL_HEIGHT - BOTTOM + 4, "stroke=\"#444444\"");
        out += text(x, PANEL_HEIGHT - BOTTOM + 15, "text-anchor=\"middle\"", whole(row.cells));
    }
    const double middle = (LEFT + PANEL_WIDTH - RIGHT) / 2, height = (TOP + PANEL_HEIGHT - BOTTOM) / 2;
    out += text(middle, PANEL_HEIGHT - BOTTOM + 29, "text-anchor=\"middle\"", "cells");
    out += "<g transform=\"translate(14," + at(height) + ") rotate(-90)\">" +
           text(0, 0, "text-anchor=\"middle\"", "microseconds") + "</g>\n";
    out += line(LEFT, TOP, LEFT, PANEL_HEIGHT - BOTTOM, "stroke=\"#444444\"");
    out += line(LEFT, PANEL_HEIGHT - BOTTOM, PANEL_WIDTH - RIGHT, PANEL_HEIGHT - BOTTOM, "stroke=\"#444444\"");
    return out;
}

// The panel of a family, at its place in the drawing.
inline std::string panel(const Scales &scales, const std::vector<Row> &rows, size_t place) {
    const double x = double(place % COLUMNS) * PANEL_WIDTH, y = HEAD + double(place / COLUMNS) * PANEL_HEIGHT;
    std::string out = "<g transform=\"translate(" + at(x) + "," + at(y) + ")\">\n";
    out += text(LEFT, TOP - 9, "font-weight=\"bold\"", marked_name(rows.front()));
    out += frame(scales, rows);
    out += curve(LIFT, scales, rows, &Row::lift);
    out += curve(REDUCE, scales, rows, &Row::reduce);
    out += curve(LEMON, scales, rows, &Row::peer);
    out += curve(PAIR, scales, rows, &Row::pair);
    return out + "</g>\n";
}

// One line of the legend.
inline std::string legend(const Style &style, double x) {
    return points(style, {{x, 57}, {x + 40, 57}}) + text(x + 50, 61, "", style.name);
}

// The title, what the axes are, and the legend.
inline std::string head() {
    return text(20, 22, "font-size=\"15\" font-weight=\"bold\"", "Time of a call against the cells of the list") +
           text(20, 40, "",
                "Medians; both scales are logarithmic and the same in every panel. * pair refuses these lists with "
                "11: reduce alone.") +
           legend(PAIR, 20) + legend(REDUCE, 240) + legend(LIFT, 530) + (PEER ? legend(LEMON, 790) : "");
}

// Decades that hold all median times.
inline Scales scales_of(const std::vector<Row> &rows) {
    double least = 1e9, most = 0;
    for (const Row &row : rows)
        for (const Times *times : {&row.reduce, &row.lift, &row.pair, &row.peer})
            if (!times->none()) {
                least = std::min(least, times->median());
                most = std::max(most, times->median());
            }
    return {double(rows.front().cells), double(rows.back().cells), std::pow(10, std::floor(std::log10(least))),
            std::pow(10, std::ceil(std::log10(most)))};
}

// The whole drawing; the rows of a family stand together, so many of each.
inline void write(std::ostream &out, const std::vector<Row> &rows, size_t sizes) {
    const Scales scales = scales_of(rows);
    const size_t panels = rows.size() / sizes, lines = (panels + COLUMNS - 1) / COLUMNS;
    const std::string width = at(COLUMNS * PANEL_WIDTH), height = at(HEAD + double(lines) * PANEL_HEIGHT);
    out << "<svg xmlns=\"http://www.w3.org/2000/svg\" viewBox=\"0 0 " << width << " " << height << "\" width=\""
        << width << "\" height=\"" << height << "\" font-family=\"sans-serif\" font-size=\"11\" fill=\"#222222\">\n"
        << "<rect width=\"" << width << "\" height=\"" << height << "\" fill=\"white\"/>\n"
        << head();
    for (size_t i = 0; i < panels; i++) {
        const auto first = rows.begin() + long(i * sizes);
        out << panel(scales, std::vector<Row>(first, first + long(sizes)), i);
    }
    out << "</svg>\n";
}

}  // namespace chart

#endif
