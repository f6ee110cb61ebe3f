//! Hours that differ from each other, and books of them.
use super::Folder;
use hem_zone::samples::hour_p;
use hem_zone::{AirChangesPerHour, Book, Conditions, ElementHour};

/// Hours of House P that differ from each other: heating, cooling, open windows and none of them. No
/// two values of an hour are the same.
pub fn varied(count: usize, delta_t_h: f64) -> Vec<u8> {
    let windows =
        AirChangesPerHour::TargetAndWindowsOpen { ach_target: 0.5, ach_windows_open: 4.0 };
    let hour = |i: usize| {
        let plain = hour_p([18.0, 21.0, 19.5][i % 3], 23.0);
        let temp_ext = 5.0 + (i % 7) as f64 / 3.0;
        let element = ElementHour {
            temp_ext: temp_ext + 0.125,
            i_sol_dir: 100.5,
            i_sol_dif: 50.25,
            f_sh_dir: 0.9,
            f_sh_dif: 0.8,
            open: 0,
        };
        Conditions {
            delta_t_h,
            temp_ext_air: temp_ext,
            temp_setpnt_cool_vent: 22.0,
            avg_air_supply_temp: temp_ext + 1.5,
            gains_internal: [-2500.0, 1800.0, 4000.0, 1.0, 300.0][i % 5],
            gains_solar: 2.0,
            frac_convective_heat: 0.7,
            frac_convective_cool: 0.95,
            gains_heat_cool_convective: 3.0,
            gains_heat_cool_radiative: 4.5,
            ach: if i % 4 == 1 { windows } else { plain.ach },
            elements: vec![element],
            ..plain
        }
    };
    (0..count).flat_map(|i| hour(i).to_bytes()).collect()
}

/// A folder with House P, these hours and their book.
pub fn with_year(name: &str, year: &[u8]) -> (Folder, Book) {
    let folder = Folder::with_house_p(name, 1);
    folder.write("p.year", year);
    folder.run().done();
    let book = Book::take_up(&folder.read("p.book")).unwrap();
    (folder, book)
}
