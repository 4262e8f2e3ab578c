//! The picture: time against file size for both sides, as SVG.

use std::fmt::Write;

use crate::timing::Times;

const WIDTH: f64 = 720.0;
const HEIGHT: f64 = 420.0;
const LEFT: f64 = 70.0;
const RIGHT: f64 = 20.0;
const TOP: f64 = 30.0;
const BOTTOM: f64 = 50.0;

/// Draws the times of both sides on files of these sizes.
pub fn draw(points: &[(usize, Times)]) -> String {
    let slowest = points.iter().map(|(_, times)| times.library.max(times.independent)).fold(1.0, f64::max);
    let largest = points.iter().map(|&(bytes, _)| bytes as f64).fold(1.0, f64::max);
    let (time_step, size_step) = (step(slowest), 8_192.0);
    let (most_time, most_size) = ((slowest / time_step).ceil() * time_step, (largest / size_step).ceil() * size_step);
    let x = |bytes: f64| LEFT + bytes / most_size * (WIDTH - LEFT - RIGHT);
    let y = |time: f64| HEIGHT - BOTTOM - time / most_time * (HEIGHT - TOP - BOTTOM);

    let mut svg = format!(
        "<svg xmlns=\"http://www.w3.org/2000/svg\" viewBox=\"0 0 {WIDTH} {HEIGHT}\" font-family=\"sans-serif\" \
         font-size=\"12\">\n<rect width=\"{WIDTH}\" height=\"{HEIGHT}\" fill=\"white\"/>\n"
    );
    let mut time = 0.0;
    while time <= most_time + time_step / 2.0 {
        line(&mut svg, (x(0.0), y(time)), (x(most_size), y(time)));
        label(&mut svg, (LEFT - 8.0, y(time) + 4.0), "end", &format!("{time}"));
        time += time_step;
    }
    let mut size = 0.0;
    while size <= most_size {
        line(&mut svg, (x(size), y(0.0)), (x(size), y(0.0) + 5.0));
        label(&mut svg, (x(size), y(0.0) + 20.0), "middle", &format!("{}", size / 1_024.0));
        size += size_step;
    }
    label(&mut svg, (LEFT - 50.0, TOP - 12.0), "start", "µs a call");
    label(&mut svg, ((LEFT + WIDTH - RIGHT) / 2.0, HEIGHT - 8.0), "middle", "size of the file, KiB");

    let sides = [("library", "#1f6fb4"), ("independent version", "#c4561a")];
    for (index, (name, colour)) in sides.into_iter().enumerate() {
        let of = |times: &Times| if index == 0 { times.library } else { times.independent };
        let path: Vec<String> =
            points.iter().map(|(bytes, times)| format!("{:.1},{:.1}", x(*bytes as f64), y(of(times)))).collect();
        let _ = writeln!(
            svg,
            "<polyline points=\"{}\" fill=\"none\" stroke=\"{colour}\" stroke-width=\"2\"/>",
            path.join(" ")
        );
        for (bytes, times) in points {
            let (x, y) = (x(*bytes as f64), y(of(times)));
            let _ = writeln!(svg, "<circle cx=\"{x:.1}\" cy=\"{y:.1}\" r=\"3\" fill=\"{colour}\"/>");
        }
        let at = TOP + 8.0 + 18.0 * index as f64;
        let _ = writeln!(
            svg,
            "<rect x=\"{}\" y=\"{}\" width=\"14\" height=\"4\" fill=\"{colour}\"/>",
            LEFT + 14.0,
            at - 6.0
        );
        label(&mut svg, (LEFT + 34.0, at), "start", name);
    }
    svg.push_str("</svg>\n");
    svg
}

/// A round step that parts the times into four to ten.
fn step(most: f64) -> f64 {
    let power = 10f64.powf((most / 10.0).log10().floor());
    [1.0, 2.0, 5.0, 10.0].map(|factor| factor * power).into_iter().find(|step| most / step <= 10.0).unwrap_or(most)
}

fn line(svg: &mut String, from: (f64, f64), to: (f64, f64)) {
    let _ = writeln!(
        svg,
        "<line x1=\"{:.1}\" y1=\"{:.1}\" x2=\"{:.1}\" y2=\"{:.1}\" stroke=\"#cccccc\"/>",
        from.0, from.1, to.0, to.1
    );
}

fn label(svg: &mut String, at: (f64, f64), anchor: &str, text: &str) {
    let _ = writeln!(svg, "<text x=\"{:.1}\" y=\"{:.1}\" text-anchor=\"{anchor}\">{text}</text>", at.0, at.1);
}

#[cfg(test)]
mod tests {
    use super::*;

    #[test]
    fn steps_are_round() {
        assert_eq!(step(9.0), 1.0);
        assert_eq!(step(11.0), 2.0);
        assert_eq!(step(430.0), 50.0);
        assert_eq!(step(990.0), 100.0);
    }

    #[test]
    fn every_point_is_drawn_inside() {
        let points: Vec<(usize, Times)> = [2_000, 30_000, 65_535]
            .map(|bytes| (bytes, Times { library: 12.5, independent: bytes as f64 / 40.0 }))
            .into();
        let svg = draw(&points);
        assert_eq!(svg.matches("<circle").count(), 6);
        for part in svg.split("cy=\"").skip(1) {
            let y: f64 = part.split('"').next().unwrap().parse().unwrap();
            assert!((TOP..=HEIGHT - BOTTOM).contains(&y), "{y}");
        }
    }
}
