// What follows stands behind the published text and calls its main function, which is private.

pub fn reach_main(
    n_wg: u32,
    config: &ConfigUniform,
    scene: &[u32],
    prefixes: &[PathMonoid],
    boxes: &mut [PathBbox],
    bump: &mut BumpAllocators,
    lines: &mut [LineSoup],
) {
    flatten_main(n_wg, config, scene, prefixes, boxes, bump, lines);
}
