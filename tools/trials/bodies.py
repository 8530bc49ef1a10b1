"""Wrong bodies of `xnfs` and `xnsim`, and the scenes that each of them makes fail."""

import os
import subprocess
import sys
import tempfile
from concurrent.futures import ThreadPoolExecutor
from dataclasses import dataclass

import code_alone
from made_from import TOP, NotMade, kit_of
from trials.programs import give_up
from trials.tally import Tally

PROGRAMS = ("xnfs", "xnsim")
# So many are built side by side, each of which takes up to 2 GB.
JOBS = 2


@dataclass
class Body:
    """A wrong body: its file, the programs in which it counts, a text of the file, what stands there in its place, and the scenes that fail. Without programs
    it is the tests of its tree that see it."""

    path: str
    programs: list
    old: str
    new: str
    scenes: list


LOCKING, REAL, TAKING, REPLACING = (f"crates/system_files/src/{it}.rt" for it in ("locking", "real", "taking", "replacing"))
LINES, MAIN = "crates/xnsim/src/files.rt", "crates/xnsim/src/main.rt"
XNFS_LINE, TREE_LINES, TREE_LOOKS, TREE_CHANGES, TREE_PUTS, TREE_GETS = (
    f"crates/{it}/src/" for it in ("xnfs_line", "tree_lines", "tree_looks", "tree_changes", "tree_puts", "tree_gets")
)
WRITING = "crates/host_trees/src/writing.rt"
FOUND_BLOCK, OPENING, SHARED_FILE = (f"crates/file_disk/src/{it}.rt" for it in ("found_block", "opening", "shared_file"))
BODIES = {
    "no_create_new": Body(
        REAL, ["xnsim"],
        "File::create_new(self.rt, name)",
        "File::create(self.rt, name)",
        ["files_left_behind_stop_no_later_run"],
    ),
    "refused_link_followed": Body(
        TAKING, ["xnfs"],
        "(Found::Link, Links::Refused) => Err(WriteFault::Link)",
        "(Found::Link, Links::Refused) => follow(system, name)",
        ["get_of_a_folder_replaces_no_file_that_a_link_leads_to"],
    ),
    "link_replaced": Body(
        TAKING, ["xnsim"],
        "(Found::Link, Links::Followed) => follow(system, name),",
        "(Found::Link, Links::Followed) => lock_at(system, String::from_str(alloc, name)?),",
        ["a_link_is_followed_and_stays"],
    ),
    "written_in_place": Body(
        TAKING, ["xnsim"],
        "    Ok(Some(Target::Replaced {\n        path,\n        old: Some(file),\n    }))\n",
        "    Ok(Some(Target::InPlace(file)))\n",
        ["another_name_of_a_file_keeps_its_bytes"],
    ),
    "target_cut_off": Body(
        REAL, ["xnsim"],
        "OpenOptions::new().write(true).open(self.rt, name)",
        "OpenOptions::new().write(true).truncate(true).open(self.rt, name)",
        ["a_signal_leaves_the_old_file_or_the_new_one"],
    ),
    "sync_after_the_rename": Body(
        REPLACING, ["xnsim"],
        "    system.sync(file)?;\n    system.rename(beside, path)\n",
        "    system.rename(beside, path)?;\n    system.sync(file)\n",
        ["a_file_is_secret_before_it_has_bytes"],
    ),
    "device_replaced": Body(
        REAL, ["xnsim"],
        "        Found::Other\n",
        "        Found::Regular\n",
        ["a_device_is_written_in_place", "a_pipe_takes_the_bytes"],
    ),
    "disk_not_locked": Body(
        LOCKING, ["xnsim"],
        "        lock(&file, access)?;\n",
        "",
        ["a_run_has_its_image_alone", "a_lock_of_anybody_is_kept", "a_disk_that_is_open_is_opened_by_nobody_else"],
    ),
    "disk_not_looked_at_again": Body(
        LOCKING, ["xnfs", "xnsim"],
        "if is_at(rt, &file, name)? {",
        "if is_at(rt, &file, name).is_ok() {",
        ["an_image_that_is_replaced_while_it_is_locked_is_read_anew", "a_disk_that_is_replaced_while_it_is_locked_is_opened_anew"],
    ),
    "pipe_opened_as_a_disk": Body(
        LOCKING, ["xnfs"],
        "    if !found.is_file() {",
        "    if found.is_symlink() {",
        ["a_pipe_is_no_disk_of_xnfs"],
    ),
    "found_at_block_0": Body(
        FOUND_BLOCK, [],
        "file.read_exact_at(&mut bytes, offset(number))?;",
        "file.read_exact_at(&mut bytes, offset(0 * number))?;",
        ["a_file_has_what_is_written_to_its_lanes"],
    ),
    "written_at_block_0": Body(
        FOUND_BLOCK, [],
        "file.write_all_at(from, offset(number))?;",
        "file.write_all_at(from, offset(0 * number))?;",
        ["a_file_has_what_is_written_to_its_lanes"],
    ),
    "image_is_not_written": Body(
        FOUND_BLOCK, [],
        "file.write_all_at(rest, BLOCK_LEN as u64)?;",
        "file.write_all_at(rest, 0)?;",
        ["a_file_has_what_is_written_to_its_lanes"],
    ),
    "block_0_is_written_first": Body(
        FOUND_BLOCK, ["xnfs"],
        "    file.write_all_at(rest, BLOCK_LEN as u64)?;\n",
        "    file.write_all_at(first, 0)?;\n    file.sync_all()?;\n    file.write_all_at(rest, BLOCK_LEN as u64)?;\n",
        ["block_0_of_a_new_disk_is_written_last"],
    ),
    "read_asks_no_file": Body(
        SHARED_FILE, [],
        "        if let Ok(found) = self.find_block(block.number())\n            && *found",
        "        if !block.is_in_doubt() {\n            *into = *block.bytes();\n            return true;\n        }\n"
        "        if let Ok(found) = self.find_block(block.number())\n            && *found",
        ["what_others_write_into_a_disk_is_a_fault"],
    ),
    "open_finds_32_blocks": Body(
        OPENING, [],
        "FoundImage::read(alloc, &file, blocks)?;",
        "FoundImage::read(alloc, &file, blocks.min(32))?;",
        ["a_file_has_what_is_written_to_its_lanes"],
    ),
    "last_piece_is_not_read": Body(
        FOUND_BLOCK, [],
        "        for piece in 0..len.div_ceil(PIECE_LEN) {\n",
        "        for piece in 0..len / PIECE_LEN {\n",
        ["a_long_file_is_read_to_its_end"],
    ),
    "make_empties_what_is_there": Body(
        OPENING, [],
        "        .create_new(true)\n",
        "        .create(true)\n        .truncate(true)\n",
        ["what_is_no_disk_is_refused_and_kept"],
    ),
    "made_under_no_name": Body(
        OPENING, [],
        "FileDisk::create_with(rt, alloc, path, &zeros)",
        'FileDisk::create_with(rt, alloc, "", &zeros)',
        ["a_file_has_what_is_written_to_its_lanes"],
    ),
    "no_error_of_the_system_is_told": Body(
        SHARED_FILE, ["xnfs"],
        "            Ok(number) => Some(io::Error::from_raw_os_error(number)),\n",
        "            Ok(_) => None,\n",
        ["the_systems_reason_is_told"],
    ),
    "new_disk_not_locked": Body(
        OPENING, ["xnfs"],
        "Err(TryLockError::WouldBlock) => Err(FileFault::InUse),",
        "Err(TryLockError::WouldBlock) => Ok(()),",
        ["a_new_disk_is_locked_before_it_is_written"],
    ),
    "name_is_not_settled": Body(
        OPENING, ["xnfs"],
        "    File::open(rt, folder)?.sync_all()?;\n",
        "    let _ = File::open(rt, folder)?;\n",
        ["the_name_of_a_new_disk_is_settled"],
    ),
    "open_settles_nothing": Body(
        SHARED_FILE, ["xnfs"],
        "        file.sync_all()?;\n",
        "",
        ["what_the_system_holds_of_a_disk_is_settled_first"],
    ),
    "failed_sync_is_good": Body(
        SHARED_FILE, [],
        "            self.note(&error);\n            self.failed.store(true, Ordering::SeqCst);\n            return None;\n",
        "            self.note(&error);\n",
        ["a_sync_of_a_disk_that_failed_is_for_good"],
    ),
    "sync_is_made_up": Body(
        SHARED_FILE, ["xnfs"],
        "        for _ in 0..u64::MAX {\n            if let Some(good)",
        "        for _ in 0..u64::MAX {\n            if wanted == 7 {\n                return Some(GoodSync { number: wanted });\n            }\n"
        "            if let Some(good)",
        ["no_sync_of_a_disk_is_made_up"],
    ),
    "write_counts_the_sync_under_way": Body(
        SHARED_FILE, [],
        "        self.begun.load(Ordering::SeqCst).saturating_add(1)\n",
        "        self.begun.load(Ordering::SeqCst)\n",
        ["a_sync_of_a_disk_that_failed_is_for_good"],
    ),
    "write_counts_the_sync_of_another_thread": Body(
        SHARED_FILE, [],
        "        self.begun.load(Ordering::SeqCst).saturating_add(1)\n",
        "        let begun = self.begun.load(Ordering::SeqCst);\n        match self.turn.try_lock() {\n            Some(_turn) => begun.saturating_add(1),\n"
        "            None => begun,\n        }\n",
        ["a_write_is_settled_by_a_sync_that_begins_after_it"],
    ),
    "target_not_locked": Body(
        REAL, ["xnsim"],
        "        match file.try_lock() {\n",
        "        match file.try_lock_shared() {\n",
        ["a_lock_of_anybody_is_kept"],
    ),
    "target_not_looked_at_again": Body(
        REAL, ["xnsim"],
        "Ok(metadata) => Ok(is_same(&metadata, &file.metadata()?)),",
        "Ok(_) => Ok(file.metadata().is_ok()),",
        ["an_output_that_is_replaced_while_it_is_locked_is_locked_anew"],
    ),
    "mode_not_kept": Body(
        REAL, ["xnsim"],
        "        file.set_permissions(metadata.permissions())?;\n",
        "",
        ["mode_owner_and_group_are_kept", "the_mask_is_for_new_files_alone"],
    ),
    "owner_not_kept": Body(
        REAL, ["xnsim"],
        "fchown(file, Some(metadata.uid()), Some(metadata.gid()))",
        "fchown(file, None, Some(metadata.gid()))",
        ["xnsim_replaces_files_of_any_name_and_keeps_their_owner", "mode_owner_and_group_are_kept"],
    ),
    "owner_has_to_be_kept": Body(
        REAL, ["xnsim"],
        "        if fchown(file, Some(metadata.uid()), Some(metadata.gid())).is_err() {\n",
        "        fchown(file, Some(metadata.uid()), Some(metadata.gid()))?;\n        if metadata.is_dir() {\n",
        ["a_file_of_others_that_may_be_written_is_replaced"],
    ),
    "nothing_removed": Body(
        REAL, ["xnsim"],
        "        let _ = fs::remove_file(self.rt, name);\n",
        "        let _ = fs::exists(self.rt, name);\n",
        ["a_call_that_fails_leaves_the_old_file", "a_full_disk_leaves_the_old_file"],
    ),
    "fault_not_told": Body(
        LINES, ["xnsim"],
        "source).is_ok()\n",
        "source).is_ok() || !name.starts_with('/')\n",
        ["a_folder_is_no_target", "a_socket_is_no_target", "a_file_that_may_not_be_written_is_not_replaced", "a_folder_that_loses_its_rights_meanwhile"],
    ),
    "replaced_image_overwritten": Body(
        LINES, ["xnsim"],
        "            && !leads_to(self.rt, name, disk)\n",
        "            && !leads_to(self.rt, name, disk)\n            && name.is_empty()\n",
        ["an_image_that_takes_the_place_of_one_that_is_run_is_kept"],
    ),
    "pipe_not_read": Body(
        LINES, ["xnsim"],
        "Err(OpenFault::NotAFile) => fs::open(rt, name).ok(),",
        "Err(OpenFault::NotAFile) => None,",
        ["pipes_and_devices_are_read"],
    ),
    "streams_not_held": Body(
        MAIN, ["xnsim"],
        "    let Ok(_held) = hold_streams(&rt) else {",
        "    let Ok(_held) = hold_streams(&rt).map(|_| ()) else {",
        ["closed_streams_of_xnsim_take_no_file"],
    ),
    "streams_of_xnfs_not_held": Body(
        "crates/xnfs/src/main.rt", ["xnfs"],
        "if file.as_raw_fd() >= STREAMS {",
        "if file.as_raw_fd() >= 0 {",
        ["a_closed_stream_is_never_the_disk"],
    ),
    "names_shown_raw": Body(
        TREE_LINES + "showing.rt", ["xnfs"],
        "if c.is_control() {",
        "if c == '\\u{0}' {",
        ["names_are_printed_without_control_bytes"],
    ),
    "names_that_lead_elsewhere_brought_out": Body(
        TREE_GETS + "naming.rt", ["xnfs"],
        "        || name.contains(&b'/')\n",
        "",
        ["get_stays_within_its_target"],
    ),
    "not_closed_after_a_fault": Body(
        XNFS_LINE + "lines.rt", ["xnfs"],
        "    if opened.is_broken() {\n        return match done {\n            Ok(_) =>",
        "    if opened.is_broken() || !matches!(&done, Ok(0)) {\n        return match done {\n            Ok(_) =>",
        ["a_lazy_shell_writes_at_each_early_end"],
    ),
    "lines_of_a_shell_not_synced": Body(
        XNFS_LINE + "shell.rt", ["xnfs"],
        "    if shell.is_lazy || is_looking(word) {\n",
        "    if shell.is_lazy || !matches!(word, Word::Sync) {\n",
        ["a_line_of_a_shell_is_on_the_disk_once_it_has_answered"],
    ),
    "links_below_a_source_followed": Body(
        TREE_PUTS + "tree_in.rt", ["xnfs"],
        "arriving.host.attributes(source.as_str())",
        "arriving.host.attributes_through(source.as_str())",
        ["put_of_a_folder_follows_no_link"],
    ),
    "files_below_a_target_followed": Body(
        TREE_GETS + "leaving.rt", ["xnfs"],
        "                    links: Links::Refused,\n",
        "                    links: Links::Followed,\n",
        ["get_of_a_folder_replaces_no_file_that_a_link_leads_to"],
    ),
    "folders_below_a_target_followed": Body(
        TREE_GETS + "tree_out.rt", ["xnfs"],
        "            Kind::SymbolicLink => Err(not_written(alloc, target.as_bytes(), WriteFault::Link)),\n            Kind::File | Kind::Other",
        "            Kind::SymbolicLink if target.is_empty() => Err(not_written(alloc, target.as_bytes(), WriteFault::Link)),\n"
        "            Kind::SymbolicLink => Ok(()),\n            Kind::File | Kind::Other",
        ["get_of_a_folder_follows_no_link_below_its_target"],
    ),
    "damage_is_no_fault": Body(
        TREE_LOOKS + "checking.rt", ["xnfs"],
        "    if faults > 0 {\n",
        "    if faults > 1_000 {\n",
        ["a_top_folder_that_is_none_is_told"],
    ),
    "attributes_not_set": Body(
        TREE_GETS + "leaving.rt", ["xnfs"],
        "        if self.keeps_attributes {\n",
        "        if self.keeps_attributes && node.is_folder() {\n",
        ["get_gives_a_new_file_the_mode_and_the_time_that_it_has_in_the_volume"],
    ),
    "replaced_file_gets_the_mode_of_the_volume": Body(
        TREE_GETS + "leaving.rt", ["xnfs"],
        "            Ok(there) if goal.keeps_owner && there.kind == Kind::File => Some(Settings {\n",
        "            Ok(there) if goal.keeps_owner && there.kind == Kind::Other => Some(Settings {\n",
        ["a_file_that_get_replaces_keeps_its_mode_and_its_owner"],
    ),
    "file_below_a_folder_keeps_the_mode_that_it_replaces": Body(
        TREE_GETS + "tree_out.rt", ["xnfs"],
        "path, target.as_str(), false)?,\n        NodeKind::SymbolicLink",
        "path, target.as_str(), true)?,\n        NodeKind::SymbolicLink",
        ["a_folder_that_get_fills_is_as_in_the_volume"],
    ),
    "copy_with_holes_named_first": Body(
        TREE_CHANGES + "copies.rt", ["xnfs"],
        "    copy_rest(opened, alloc, copied, block, piece)?;\n    let commit = Commit {\n        block,\n        directory: copied.place.folder,\n"
        "        name: copied.place.name,\n        replace: true,\n    };\n    opened.make_name(alloc, copied.to, &commit)\n",
        "    let commit = Commit {\n        block,\n        directory: copied.place.folder,\n        name: copied.place.name,\n        replace: true,\n    };\n"
        "    let number = opened.make_name(alloc, copied.to, &commit)?;\n    copy_rest(opened, alloc, copied, block, piece)?;\n    Ok(number)\n",
        ["a_copy_with_holes_has_its_name_once_it_is_whole"],
    ),
    "got_file_made_for_all": Body(
        WRITING, ["xnfs"],
        "let mode = if self.settings.is_some() { OWN } else { ANY };",
        "let mode = if self.settings.is_some() { ANY } else { OWN };",
        ["what_get_makes_is_secret_until_it_has_its_mode"],
    ),
    "got_file_keeps_the_old_mode_first": Body(
        WRITING, ["xnfs"],
        "        if self.settings.is_some() {\n            return Ok(());\n        }\n",
        "",
        ["what_get_writes_never_has_the_mode_of_the_file_that_it_replaces"],
    ),
    "top_folder_made_for_all": Body(
        TREE_GETS + "tree_out.rt", ["xnfs"],
        "        make_own(host, target)\n",
        "        make_own(host, target).and_then(|()| host.make_folders(target))\n",
        ["a_folder_that_get_makes_is_secret_until_it_is_full"],
    ),
    "moved_onto_what_was_moved": Body(
        TREE_CHANGES + "moving.rt", ["xnfs"],
        "if is_taken && given.contains(place.name) {",
        "if is_taken && given.contains(place.name) && place.has_slash {",
        ["two_files_of_one_name_are_both_kept"],
    ),
    "names_shown_alike_are_one": Body(
        TREE_GETS + "tree_out.rt", ["xnfs"],
        "    if leaving.view.look_up(folder, name.as_bytes()).is_err() {\n",
        "    if leaving.view.look_up(folder, name.as_bytes()).is_err() || !name.is_empty() {\n",
        ["two_names_that_are_brought_out_as_one_are_both_kept"],
    ),
    "first_number_taken": Body(
        TREE_GETS + "tree_out.rt", ["xnfs"],
        "        if leaving.view.look_up(folder, numbered.as_bytes()).is_err() {\n",
        "        if number == 1 || leaving.view.look_up(folder, numbered.as_bytes()).is_err() {\n",
        ["two_names_that_are_brought_out_as_one_are_both_kept"],
    ),
    "any_size_is_sound": Body(
        "crates/treefs_check/src/inodes.rt", ["xnfs"],
        "    if numbered.inode.fields.size > GREATEST_SIZE {\n",
        "    if numbered.inode.fields.size > GREATEST_SIZE && numbered.number == 1 {\n",
        ["sizes_up_to_the_greatest_are_good", "a_volume_that_is_damaged_is_told"],
    ),
    "greatest_size_is_damage": Body(
        "crates/treefs_check/src/inodes.rt", ["xnfs"],
        "    if numbered.inode.fields.size > GREATEST_SIZE {\n",
        "    if numbered.inode.fields.size >= GREATEST_SIZE {\n",
        ["sizes_up_to_the_greatest_are_good"],
    ),
    "closed_volume_not_mended": Body(
        XNFS_LINE + "lines.rt", ["xnfs"],
        "is_wrong && is_closed));",
        "is_wrong && !is_closed));",
        ["check_repairs_what_it_tells_to_be_mended"],
    ),
    "unnamed_freed_of_a_closed_volume": Body(
        TREE_LOOKS + "repairing.rt", ["xnfs"],
        "    if is_closed || found.iter().any(|finding| finding.is_damage()) {\n",
        "    if found.iter().any(|finding| finding.is_damage()) {\n",
        ["repair_frees_nothing_that_no_crash_left"],
    ),
    "unnamed_freed_of_a_damaged_volume": Body(
        TREE_LOOKS + "repairing.rt", ["xnfs"],
        "    if is_closed || found.iter().any(|finding| finding.is_damage()) {\n",
        "    if is_closed {\n",
        ["repair_frees_nothing_that_no_crash_left"],
    ),
    "unnamed_never_freed": Body(
        TREE_LOOKS + "repairing.rt", ["xnfs"],
        "    if is_closed || found.iter().any(|finding| finding.is_damage()) {\n",
        "    if is_closed || found.iter().any(|finding| finding.is_damage() || !is_json) {\n",
        ["repair_frees_what_a_crash_left_without_a_name"],
    ),
    "damage_that_stays_mended_in_part": Body(
        TREE_LOOKS + "repairing.rt", ["xnfs"],
        "        Finding::NoTop | Finding::NotFound(_) | Finding::TooLong(_)\n",
        "        Finding::NoTop | Finding::NotFound(_)\n",
        ["damage_that_stays_is_not_mended_in_part"],
    ),
    "disk_put_into_itself": Body(
        TREE_PUTS + "tree_in.rt", ["xnfs"],
        "        && disk.is_same(goods.attributes)\n",
        "        && disk.is_same(goods.attributes)\n        && disk.size == 0\n",
        ["the_disk_is_not_put_into_itself"],
    ),
}


def build(tree, program, out):
    """Builds a program of a tree's code alone, in less time than one that is to be fast."""
    with tempfile.TemporaryDirectory() as room:
        code_alone.build(kit_of(), tree, program, out, room, code_alone.UNOPTIMIZED)


def scene_fails(folder, paths, scene, tree):
    """Whether a scene fails with these programs, or with the tests of this tree, and its line."""
    named = {program.upper(): path for program, path in paths.items()}
    words = [sys.executable, os.path.join(TOP, "tools", "outside"), "edges", scene]
    done = subprocess.run(words, cwd=folder, env={**os.environ, **named, "TREE": tree}, capture_output=True, text=True, check=False)
    line = next((line for line in done.stdout.splitlines() if f"{scene}: " in line), done.stderr[-300:])
    return done.returncode == 1 and line.startswith("wrong: "), line


def planted(name, usual):
    """Plants a wrong body and builds its programs; in the place of another program stands the usual one. Whether each scene fails, and its line."""
    body = BODIES[name]
    with tempfile.TemporaryDirectory() as room:
        tree = code_alone.copy_text(TOP, os.path.join(room, "tree"))
        path = os.path.join(tree, body.path)
        with open(path, encoding="utf-8") as file:
            text = file.read()
        if text.count(body.old) != 1:
            return [(False, f"its text stands {text.count(body.old)} times in {body.path}")]
        with open(path, "w", encoding="utf-8") as file:
            file.write(text.replace(body.old, body.new))
        paths = dict(usual)
        for program in body.programs:
            paths[program] = os.path.join(room, program)
            try:
                build(tree, program, paths[program])
            except NotMade as error:
                return [(False, f"no program: {error}")]
        return [scene_fails(room, paths, scene, tree) for scene in body.scenes]


def try_bodies(names):
    """Has each scene fail with its wrong bodies, and with the right ones not."""
    tally = Tally("bodies", "scenes")
    if unknown := set(names) - set(BODIES):
        give_up(f"there is no body {' '.join(sorted(unknown))}")
    with tempfile.TemporaryDirectory() as room, ThreadPoolExecutor(JOBS) as pool:
        tree = code_alone.copy_text(TOP, os.path.join(room, "tree"))
        usual = {program: os.path.join(room, program) for program in PROGRAMS}
        print(f"code alone, built of {TOP} with each wrong body", flush=True)
        list(pool.map(lambda program: build(tree, program, usual[program]), PROGRAMS))
        for scene in dict.fromkeys(scene for name in names for scene in BODIES[name].scenes):
            fails, line = scene_fails(room, usual, scene, tree)
            if fails:
                tally.fault(f"without a wrong body {line}")
        for name, seen in zip(names, pool.map(lambda name: planted(name, usual), names)):
            tally.count("bodies")
            for fails, line in seen:
                tally.count("scenes")
                if fails:
                    print(f"{name}: seen by {line.removeprefix('wrong: ')}", flush=True)
                else:
                    tally.fault(f"{name}: missed by {line}")
    return tally
