//! The ratios once more, for whoever looks for one of them; and the worst, with the bar that is asked for.
use crate::duel::Ratio;
use crate::timing::median;

/// The library is to take no more than so many hundredths of the time of the plain function that goes about it in the same way.
const BAR: u32 = 200;

/// A ratio as it is shown, in hundredths.
fn hundredths(ratio: &Ratio) -> u32 {
    (ratio.ratio * 100.0).round() as u32
}

/// The worst of the ratios, and how many are above the bar.
fn verdict(ratios: &[Ratio]) -> String {
    let above = ratios.iter().filter(|ratio| hundredths(ratio) > BAR).count();
    let kept = if above == 0 { "kept".to_string() } else { format!("{above} above") };
    let worst = ratios.iter().max_by_key(|ratio| hundredths(ratio)).expect("something was timed");
    format!("worst: {} {:.2}; bar {:.2}: {kept}", worst.name, worst.ratio, f64::from(BAR) / 100.0)
}

/// How busy the machine was; a line for each ratio; and one for the worst.
pub fn print(ratios: &[Ratio]) {
    let unrest = median(ratios.iter().map(|ratio| ratio.unrest).collect());
    println!(
        "The median round of plain took {unrest:.2} times its best one: near 1 on a quiet machine, more where others had the core too."
    );
    println!();
    for (i, Ratio { name, ratio, .. }) in ratios.iter().enumerate() {
        assert!(!name.contains(' ') && ratios[..i].iter().all(|other| other.name != *name), "{name}: a single word, and its own");
        println!("{name} ratio {ratio:.2}");
    }
    println!("{}", verdict(ratios));
}

#[cfg(test)]
mod tests {
    use super::*;

    #[test]
    fn bar_is_as_the_ratios_are_shown() {
        let ratios = |list: &[f64]| list.iter().map(|&ratio| Ratio { name: format!("of-{ratio}"), ratio, unrest: 1.0 }).collect::<Vec<_>>();
        assert_eq!(verdict(&ratios(&[0.5, 2.004])), "worst: of-2.004 2.00; bar 2.00: kept");
        assert_eq!(verdict(&ratios(&[2.006, 2.411, 1.0])), "worst: of-2.411 2.41; bar 2.00: 2 above");
    }
}
