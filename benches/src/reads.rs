//! Times one cell by each route, and one content, against the second implementation's.

use std::hint::black_box;
use std::time::Duration;

use gvrs_tests::library::{self, DIRECTORY, WALK, WALK_WITHOUT_STAGE_9};
use gvrs_tests::second::cells::{Opened, Spot, STORED};

use crate::shapes;
use crate::{milliseconds, shortest};

pub fn measure() {
    println!("{:60} {:>12} {:>12} {:>8}", "one read", "library", "second", "ratio");
    let last = Spot { row: 15 * 4096 - 1, column: 63, element: 0 };
    measure_shape("few large tiles", &shapes::few_large_tiles(true), last, 14);
    measure_shape("the same, checksums off", &shapes::few_large_tiles(false), last, 14);
    let last = Spot { row: 256 * 7 - 1, column: 256 * 8 - 1, element: 0 };
    measure_shape("65,536 small tiles", &shapes::many_small_tiles(true), last, 65_535);
    measure_shape("the same, checksums off", &shapes::many_small_tiles(false), last, 65_535);
}

/// The last tile's last cell. Both implementations must find it stored.
fn measure_shape(shape: &str, file: &[u8], spot: Spot, tile: u64) {
    let routes = [
        ("by the directory", DIRECTORY),
        ("by the walk", WALK),
        ("by the walk without stage 9", WALK_WITHOUT_STAGE_9),
    ];
    for (name, route) in routes {
        let of_library = shortest(|| {
            assert_eq!(library::cell(black_box(file), spot, route).0, STORED, "{shape}");
        });
        let of_second = shortest(|| {
            let opened = match route {
                WALK_WITHOUT_STAGE_9 => Opened::without_stage_9(black_box(file)),
                _ => Opened::checked(black_box(file)),
            };
            assert_eq!(opened.cell(spot).as_numbers().0, STORED, "{shape}");
        });
        line(&format!("{shape}: a cell {name}"), of_library, of_second);
    }
    let of_library = shortest(|| {
        assert_eq!(library::content(black_box(file), tile, 0).0, STORED, "{shape}");
    });
    let of_second = shortest(|| {
        let content = Opened::checked(black_box(file)).content(tile, 0);
        assert_eq!(content.as_numbers().0, STORED, "{shape}");
    });
    line(&format!("{shape}: a content"), of_library, of_second);
}

fn line(name: &str, of_library: Duration, of_second: Duration) {
    let ratio = of_library.as_secs_f64() / of_second.as_secs_f64();
    let (library, second) = (milliseconds(of_library), milliseconds(of_second));
    println!("{name:60} {library:>9.3} ms {second:>9.3} ms {ratio:>8.2}");
}
