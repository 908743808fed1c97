//! Writes the models to a folder, and some random ones: `models FOLDER [COUNT [SEED]]`.

use models::{
    chain, corner, damaged, deep, dry_inlet, inventory, long_listing, mixed, near_limit, of_length, of_old_length,
    old_form, pond, pond_kept, rain, rain_tanks_kept, random, rover, rover_moving, settings, staircases, steep_end,
    wet_reservoirs, Rng, MODEL_BYTES, OLD_BYTES,
};
use std::path::Path;

fn main() -> std::io::Result<()> {
    let args: Vec<String> = std::env::args().skip(1).collect();
    let Some(folder) = args.first().map(Path::new) else {
        eprintln!("models FOLDER [COUNT [SEED]]");
        std::process::exit(2)
    };
    let number = |place: usize| args.get(place).and_then(|arg| arg.parse::<u64>().ok());
    std::fs::create_dir_all(folder)?;
    let fixed = [
        ("pond", pond()),
        ("pond_kept", pond_kept()),
        ("rain", rain()),
        ("corner", corner()),
        ("steep_end", steep_end()),
        ("dry_inlet", dry_inlet()),
        ("wet_reservoirs", wet_reservoirs()),
        ("staircases", staircases()),
        ("near_limit", near_limit()),
        ("rain_tanks_kept", rain_tanks_kept()),
        ("deep", deep()),
        ("settings", settings()),
        ("mixed", mixed()),
        ("seven_tanks", chain(7)),
        // Domains of the papers, by their numbers of orders and moves.
        ("inventory_known_1", inventory(1, true)),
        ("inventory_known_2", inventory(2, true)),
        ("inventory_known_5", inventory(5, true)),
        ("inventory_uncertain_1", inventory(1, false)),
        ("inventory_uncertain_2", inventory(2, false)),
        ("inventory_uncertain_5", inventory(5, false)),
        ("rover_2", rover()),
        ("rover_4", rover_moving(&[-10, -5, 5, 10])),
        ("rover_8", rover_moving(&[-10, -7, -4, -1, 1, 4, 7, 10])),
        ("longest", of_length(MODEL_BYTES)),
        ("too_long", of_length(MODEL_BYTES + 1)),
        // 65,535 bytes in the old form, and one more.
        ("old_fits", of_old_length(OLD_BYTES)),
        ("old_too_long", of_old_length(OLD_BYTES + 1)),
        // With horizon 7, 65,536 bytes of text and one more.
        ("text_fits", long_listing(117)),
        ("text_too_long", long_listing(116)),
    ];
    for (name, model) in fixed {
        std::fs::write(folder.join(name), model)?;
    }
    for (name, model) in [("old_pond", pond()), ("old_pond_kept", pond_kept()), ("old_rain", rain())] {
        std::fs::write(folder.join(name), old_form(&model))?;
    }
    let mut rng = Rng(number(2).unwrap_or(1));
    for i in 0..number(1).unwrap_or(0) {
        let model = random(&mut rng);
        std::fs::write(folder.join(format!("damaged{i}")), damaged(&mut rng, &model))?;
        std::fs::write(folder.join(format!("random{i}")), model)?;
    }
    Ok(())
}
