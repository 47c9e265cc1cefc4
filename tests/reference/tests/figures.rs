//! The figures of an area as text.

use reference::area::Area;
use reference::examples::scope_job;
use reference::figures::figures;
use reference::program;

#[test]
fn the_figures_of_the_document_job() {
    let mut area = Area::empty(512, 64);
    program::run(&scope_job(), &mut area);
    let expected = "\
check yes
axes 2
held 4
index 0 levels 1 1 state old coefficient -1 tensor 4362076160 difference 4362076160
index 1 levels 2 1 state old coefficient 0 tensor 6509559808 difference 2147483648
index 2 levels 1 2 state active coefficient 1 tensor 4362076160 difference 0
index 3 levels 3 1 state active coefficient 1 tensor 5972688896 difference -536870912
recorded 5972688896
differences 5972688896
cross 5972688896
";
    assert_eq!(figures(&area), expected);
    area.job.held = 3;
    assert!(figures(&area).starts_with("check no\nbroken AdmissibleAreHeld "));
    area.job.held = 4;
    area.store.truncate(63);
    assert!(figures(&area).starts_with("check no\naxes 2\n"), "sound but too short");
}
