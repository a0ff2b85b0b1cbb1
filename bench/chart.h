// The table of a run, printed, and as an SVG bar chart.
#pragma once

#include <cmath>
#include <cstdio>
#include <string>
#include <vector>

// Nanoseconds an operation; 0 if there is no such figure.
struct Row {
  std::string work;
  double ours;
  double limit;                // the hashing alone that the format requires
  std::vector<double> theirs;  // of each other store
};

inline std::string Nanoseconds(double value) {
  if (value <= 0) return "-";
  char text[32];
  snprintf(text, sizeof text, value < 100 ? "%.1f" : "%.0f", value);
  return text;
}

// Another store's time, and our time divided by it.
inline std::string Beside(double ours, double theirs) {
  if (ours <= 0 || theirs <= 0) return Nanoseconds(theirs);
  char text[32];
  snprintf(text, sizeof text, " (%.2f)", ours / theirs);
  return Nanoseconds(theirs) + text;
}

inline void PrintTable(const std::string& title, const std::vector<std::string>& stores,
                       const std::vector<Row>& rows) {
  printf("\n%s\n\n| Work | ours, ns | limit, ns |", title.c_str());
  for (const std::string& store : stores) printf(" %s, ns (ratio) |", store.c_str());
  printf("\n|---|---|---|");
  for (size_t i = 0; i < stores.size(); i++) printf("---|");
  printf("\n");
  for (const Row& row : rows) {
    printf("| %s | %s | %s |", row.work.c_str(), Nanoseconds(row.ours).c_str(),
           Nanoseconds(row.limit).c_str());
    for (size_t i = 0; i < stores.size(); i++) {
      double theirs = i < row.theirs.size() ? row.theirs[i] : 0;
      printf(" %s |", Beside(row.ours, theirs).c_str());
    }
    printf("\n");
  }
  fflush(stdout);
}

// Our times relative to two stores: bars on a logarithmic scale. The middle line is the other
// store's time.
class Chart {
 public:
  explicit Chart(const std::string& path) : file_(fopen(path.c_str(), "w")), path_(path) {}

  bool IsOpen() const { return file_ != nullptr; }

  // The stores' indexes in each row.
  void Draw(const std::string& title, const std::vector<std::string>& stores,
            const std::vector<Row>& rows, size_t first, size_t second) {
    std::vector<const Row*> shown;
    for (const Row& row : rows) {
      if (row.theirs[first] > 0 && row.ours > 0) shown.push_back(&row);
    }
    int height = 80 + 40 * static_cast<int>(shown.size());
    fprintf(file_,
            "<svg xmlns=\"http://www.w3.org/2000/svg\" width=\"%d\" height=\"%d\" "
            "font-family=\"sans-serif\" font-size=\"13\">\n"
            "<rect width=\"100%%\" height=\"100%%\" fill=\"white\"/>\n"
            "<text x=\"12\" y=\"22\" font-size=\"15\">%s</text>\n",
            kWidth, height, title.c_str());
    Legend(stores[first], stores[second]);
    for (double line : {0.125, 0.25, 0.5, 1.0, 2.0, 4.0, 8.0}) {
      fprintf(file_,
              "<line x1=\"%.1f\" y1=\"56\" x2=\"%.1f\" y2=\"%d\" stroke=\"%s\"/>\n"
              "<text x=\"%.1f\" y=\"%d\" text-anchor=\"middle\" fill=\"#555\">%g</text>\n",
              At(line), At(line), height - 24, line == 1.0 ? "#333" : "#ddd", At(line),
              height - 8, line);
    }
    int y = 60;
    for (const Row* row : shown) {
      fprintf(file_, "<text x=\"12\" y=\"%d\">%s</text>\n", y + 20, row->work.c_str());
      Bar(y, row->ours / row->theirs[first], kFirst);
      if (row->theirs[second] > 0) Bar(y + 16, row->ours / row->theirs[second], kSecond);
      y += 40;
    }
    fprintf(file_, "</svg>\n");
    fclose(file_);
    file_ = nullptr;
    printf("\nchart: %s\n", path_.c_str());
  }

 private:
  // Labels are left of the shortest bar, and the figure of the longest bar has room after it.
  static constexpr double kWords = 350, kDoubling = 80, kLeast = -3.6, kMost = 3.2, kFigure = 48;
  static constexpr double kMiddle = kWords - kLeast * kDoubling;
  static constexpr int kWidth = static_cast<int>(kMiddle + kMost * kDoubling + kFigure);
  static constexpr const char* kFirst = "#4477aa";
  static constexpr const char* kSecond = "#cc6677";

  static double At(double ratio) {
    return kMiddle + kDoubling * std::fmin(std::fmax(std::log2(ratio), kLeast), kMost);
  }

  void Legend(const std::string& first, const std::string& second) {
    fprintf(file_,
            "<rect x=\"12\" y=\"34\" width=\"12\" height=\"12\" fill=\"%s\"/>"
            "<text x=\"30\" y=\"45\">to %s</text>"
            "<rect x=\"180\" y=\"34\" width=\"12\" height=\"12\" fill=\"%s\"/>"
            "<text x=\"198\" y=\"45\">to %s</text>"
            "<text x=\"%.0f\" y=\"45\" fill=\"#555\">left of 1: ours is faster</text>\n",
            kFirst, first.c_str(), kSecond, second.c_str(), kWords);
  }

  void Bar(int y, double ratio, const char* color) {
    double from = std::fmin(At(1), At(ratio)), to = std::fmax(At(1), At(ratio));
    fprintf(file_,
            "<rect x=\"%.1f\" y=\"%d\" width=\"%.1f\" height=\"14\" fill=\"%s\"/>\n"
            "<text x=\"%.1f\" y=\"%d\" font-size=\"11\" text-anchor=\"%s\">%.2f</text>\n",
            from, y, std::fmax(to - from, 1.0), color, ratio >= 1 ? to + 4 : from - 4, y + 11,
            ratio >= 1 ? "start" : "end", ratio);
  }

  FILE* file_;
  std::string path_;
};
