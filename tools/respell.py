#!/usr/bin/env python3
"""Respells the repository's own names once, after the kit's port.py: definitions, record fields and lemmas in snake case.

A dash stays where it joins two names, as in `dot-combine`; a lemma that would have its definition's name gets `_lem`.
Names of Rust items, strings, inputs and outputs stay. Run it at the top of the repository, once:

    python3 tools/respell.py
"""
import glob
import re

# definitions: in specs, proofs, clauses and pages
DEFINITIONS = """
acceptedLine=accepted_line admittedAt=admitted_at areEnds=are_ends areParents=are_parents areValues=are_values backOf=back_of
blockAsked=block_asked blockBody=block_body blockIn=block_in blockWith=block_with blocksFor=blocks_for bytesI32=bytes_i32
ceilingAt=ceiling_at combinationOf=combination_of combinationRight=combination_right countIn=count_in derivationOf=derivation_of
derivationShown=derivation_shown dyadicOf=dyadic_of dyadicOver=dyadic_over edgeOver=edge_over endNamed=end_named
firstFrom=first_from firstIn=first_in floorAt=floor_at forEach=for_each fractionText=fraction_text frameAsked=frame_asked
frameRight=frame_right fromLow=from_low fromLower=from_lower gcdAll=gcd_all gcdBy=gcd_by gcdFrom=gcd_from gcdOf=gcd_of
headerAsked=header_asked headerBytes=header_bytes headerHeld=header_held headerHolds=header_holds headerRight=header_right
heldAfter=held_after ifShort=if_short imageAsked=image_asked imageSize=image_size inBounds=in_bounds inLimit=in_limit
inLowest=in_lowest inOrder=in_order inputsBelow=inputs_below inputsOf=inputs_of intervalOf=interval_of isBeyond=is_beyond
isEnd=is_end isFalse=is_false isGcd=is_gcd isGiven=is_given isInput=is_input isInterval=is_interval isLength=is_length
isScale=is_scale isShort=is_short isTrue=is_true kindIn=kind_in kindRight=kind_right lastPlace=last_place lastWith=last_with
layerOf=layer_of layerText=layer_text leI32=le_i32 levelOf=level_of lowestOf=lowest_of lowestTerms=lowest_terms madeOver=made_over
madeUnder=made_under magnitudeOf=magnitude_of nearestAt=nearest_at nearestOf=nearest_of numbersIn=numbers_in
parentsRight=parents_right placeText=place_text powersFrom=powers_from readingIn=reading_in recordAsked=record_asked
recordBytes=record_bytes recordIn=record_in recordOf=record_of recordShown=record_shown recordWith=record_with
recordsBlock=records_block recordsIn=records_in recordsWith=records_with refusedLine=refused_line rowBytes=row_bytes
rowLimit=row_limit rowOf=row_of sameNumber=same_number sameRow=same_row sealOf=seal_of sealRight=seal_right secondIn=second_in
shownAt=shown_at shownOf=shown_of simplestOf=simplest_of toHigh=to_high toMinusSevenHalves=to_minus_seven_halves toUpper=to_upper
turnedBy=turned_by twoFifthsOn=two_fifths_on uIn=u_in unknownsIn=unknowns_in vIn=v_in valueLimit=value_limit
viewedRecord=viewed_record withinAll=within_all withinLimit=within_limit worthOf=worth_of writeAsked=write_asked writeOf=write_of
zeroBytes=zero_bytes zerosIn=zeros_in
"""

# fields of records
FIELDS = """
above-one=above_one after-kind=after_kind after-row=after_row bytes-at=bytes_at dyadic-thirteen-of-32=dyadic_thirteen_of_32
each-no=each_no edge-minus-seven-halves=edge_minus_seven_halves edge-two-fifths=edge_two_fifths far-end=far_end few-over=few_over
few-parts=few_parts few-scale=few_scale few-under=few_under first-earlier=first_earlier front-on=front_on
image-accepted=image_accepted is-span=is_span its-count=its_count its-first=its_first its-number=its_number its-second=its_second
its-size=its_size its-tag=its_tag its-u=its_u its-v=its_v last-false=last_false least-denominator=least_denominator
least-numerator=least_numerator least-power=least_power length-joined=length_joined length-record-of=length_record_of
length-shown=length_shown lower-end=lower_end near-end=near_end none-fits=none_fits pair-from=pair_from
second-earlier=second_earlier shown-at=shown_at_lem simplest-minus-four=simplest_minus_four simplest-two-fifths=simplest_two_fifths
small-u=small_u small-v=small_v some-over=some_over some-records=some_records some-scale=some_scale some-under=some_under
some-unknowns=some_unknowns turn-named=turn_named upper-end=upper_end
"""

# lemmas: in specs, proofs and clauses
LEMMAS = """
*ℤ-assoc=*ℤ_assoc *ℤ-distrib=*ℤ_distrib *ℤ-distribr=*ℤ_distribr *ℤ-left-comm=*ℤ_left_comm *ℤ-neg=*ℤ_neg +ℤ-left-comm=+ℤ_left_comm
above-both=above_both above-too=above_too abs-product=abs_product abs-quot=abs_quot after-header=after_header all-block=all_block
all-body=all_body all-bytes=all_bytes all-bytes16=all_bytes16 all-bytes32=all_bytes32 all-header=all_header
all-headerHeld=all_header_held all-image=all_image all-joined=all_joined all-record=all_record all-records=all_records
all-sealed=all_sealed all-sixty=all_sixty all-zeros=all_zeros as-block=as_block as-header=as_header as-input=as_input
asked-sized=asked_sized asked-yes=asked_yes behind-down=behind_down behind-up=behind_up block-bytes=block_bytes
block-forth=block_forth block-is=block_is block-later=block_later block-long=block_long block-yes=block_yes blocks-of=blocks_of
both-above=both_above both-within=both_within by-same=by_same by-turns=by_turns bytes-shown=bytes_shown bytes32-of=bytes32_of
bytesI32-leI32=bytes_i32-le_i32 ceiling-same=ceiling_same combination-follows=combination_follows combine-more=combine_more
combine-nonneg=combine_nonneg cross-trans=cross_trans derivation-nine=derivation_nine divided-once=divided_once
dot-combine-nonneg=dot-combine_nonneg dot-comm=dot_comm dot-lowest-nonneg=dot_lowest_nonneg dot-more=dot_more
dyadic-keeps=dyadic_keeps each-record=each_record each-satisfied=each_satisfied edge-keeps=edge_keeps edge-offers=edge_offers
eight-at=eight_at end-limits=end_limits end-zeros=end_zeros ends-limits=ends_limits exists-by=exists_by
false-unsatisfied=false_unsatisfied far-down=far_down far-under=far_under far-up=far_up first-lowest=first_lowest
first-place=first_place fits-within=fits_within floor-same=floor_same found-row=found_row frame-yes=frame_yes
from-divides=from_divides from-divides-start=from_divides_start from-greatest=from_greatest from-near=from_near
from-positive-product=from_positive_product from-within=from_within front-more=front_more gcd-comm=gcd_comm gcd-is=gcd_is
gcd-one=gcd_one gcd-pos=gcd_pos gcd-pos-left=gcd_pos_left gcd-reduced=gcd_reduced gcd-step=gcd_step gcd-unique=gcd_unique
gcd-within=gcd_within gcd-zero=gcd_zero getD-combine=slice_index_or-combine given-at=given_at given-shown=given_shown
halved-lower=halved_lower halved-upper=halved_upper has-row=has_row header-back=header_back header-forth=header_forth
header-right=header_right_lem header-sized=header_sized header-yes=header_yes if-short=if_short_lem input-forth=input_forth
inputs-shown=inputs_shown interval-limits=interval_limits is-length=is_length_lem joined-on=joined_on kind-back=kind_back
kind-input=kind_input kind-shown=kind_shown kind-step=kind_step last-own=last_own last-past=last_past last-same=last_same
later-block=later_block layer-keeps=layer_keeps le16-at=le16_at le16-lt=le16_lt le32-at=le32_at le32-lt=le32_lt leI32-at=le_i32_at
least-exists=least_exists least-lowest=least_lowest least-of-simplest=least_of_simplest least-small=least_small
length-block=length_block length-body=length_body length-header=length_header length-held=length_held length-image=length_image
length-lowest=length_lowest length-numbers=length_numbers length-record=length_record length-records=length_records
length-row=length_row lesser-over=lesser_over level-is=level_is level-more=level_more level-none=level_none level-same=level_same
likely-offers=likely_offers long-none=long_none low-max=low_max lower-named=lower_named lower-same=lower_same
lower-to-upper=lower_to_upper lower-zero=lower_zero lowest-as-given=lowest_as_given lowest-back=lowest_back
lowest-clauses=lowest_clauses lowest-common=lowest_common lowest-equal=lowest_equal lowest-follows=lowest_follows
lowest-is=lowest_is lowest-is-lowest=lowest_is_lowest lowest-positive=lowest_positive lowest-within=lowest_within
made-same=made_same magnitude-is=magnitude_is mid-high=mid_high mid-least=mid_least mid-low=mid_low min-high=min_high
min-least=min_least mixed-is=mixed_is mixed-within=mixed_within mul-cancel-le=mul_cancel_le mul-nonneg=mul_nonneg
mul-posℤ=mul_pos_ℤ names-dyadic=names_dyadic names-simplest=names_simplest near-between=near_between nearest-is=nearest_is
nearest-of=nearest_of_lem nearest-of-simplest=nearest_of_simplest nearest-seen=nearest_seen nearest-unique=nearest_unique
neg-both=neg_both neg-form=neg_form neg-swap=neg_swap no-mid=no_mid none-odd-one=none_odd_one none-odd-twice=none_odd_twice
not-below=not_below not-up=not_up numbers-at=numbers_at numbers-forth=numbers_forth odd-divisor=odd_divisor odd-lowest=odd_lowest
of-gcd=of_gcd ok-viewed=ok_viewed one-image-each=one_image_each one-lowest=one_lowest or-rest=or_rest over-on=over_on
over-to=over_to pair-at=pair_at pairs-length=pairs_length part-between=part_between power-is=power_is power-more=power_more
powers-name=powers_name powers-offer=powers_offer product-small-wide=product_small_wide product-within=product_within
quot-one=quot_one quot-zero=quot_zero quotient-of=quotient_of quotient-pos=quotient_pos reach-small=reach_small
read-product=read_product reads-back=reads_back record-at=record_at record-back=record_back record-in-block=record_in_block
record-of-block=record_of_block record-of-place=record_of_place record-yes=record_yes records-in=records_in_lem
rounded-below=rounded_below rounded-up=rounded_up row-at=row_at_lem row-held=row_held row-nine=row_nine row-of-level=row_of_level
row-shown=row_shown same-le=same_le same-leb=same_leb same-magnitude=same_magnitude same-no=same_no same-off=same_off
same-on=same_on same-yes=same_yes same_number=same_number_lem same_row=same_row_lem scale-limits=scale_limits seal-forth=seal_forth
sealed-back=sealed_back sealed-is=sealed_is search-ends=search_ends search-finds=search_finds seen-some=seen_some
sees-down=sees_down sees-parts=sees_parts sees-up=sees_up short-from=short_from short-limits=short_limits short-with=short_with
shown-back=shown_back shown-forth=shown_forth shown-input=shown_input shown-is=shown_is shown-step=shown_step sign-down=sign_down
sign-of-product=sign_of_product sign-up=sign_up simplest-exists=simplest_exists simplest-keeps=simplest_keeps
simplest-may=simplest_may simplest-named=simplest_named simplest-only=simplest_only simplest-seen=simplest_seen
simplest-zero=simplest_zero some-down=some_down some-factor=some_factor some-whole=some_whole span-is=span_is span-least=span_least
span-sees=span_sees standing-back=standing_back standing-forth=standing_forth stands-held=stands_held stands-shown=stands_shown
step-forth=step_forth sum-within=sum_within take-two=take_two then-both=then_both then-no=then_no then-yes=then_yes
times-fits=times_fits times-is=times_is times-neg=times_neg times-one=times_one times-quot=times_quot times-within=times_within
to-far=to_far turned-least=turned_least turned-order=turned_order twice-left=twice_left twice-right=twice_right
under-small=under_small unknowns-in=unknowns_in_lem upper-from-lower=upper_from_lower upper-named=upper_named upper-same=upper_same
upper-zero=upper_zero weigh-le=weigh_le weigh-more=weigh_more weigh-push=weigh_push weight-le=weight_le whole-least=whole_least
whole-least-to=whole_least_to wide-product=wide_product with-below=with_below with-own=with_own with-zero=with_zero
within-fits=within_fits within-from=within_from within-is=within_is within-set=within_set within-stop=within_stop
within-weaken=within_weaken worked-choices=worked_choices yes-all=yes_all yes-back=yes_back yes-block=yes_block yes-forth=yes_forth
yes-input=yes_input yes-record=yes_record yes-step=yes_step zero-down=zero_down zero-first=zero_first zero-from=zero_from
zero-inside=zero_inside zero-magnitude=zero_magnitude zero-named=zero_named zero-only=zero_only zero-short=zero_short
zero-times=zero_times zero-to=zero_to zero-up=zero_up zeros-all=zeros_all zeros-are=zeros_are zeros-at=zeros_at
zeros-back=zeros_back zeros-more=zeros_more zeros-no=zeros_no zeros-yes=zeros_yes
"""


def table(text):
    return dict(word.split("=") for word in text.split())


def respelled(text, names, after_dot):
    if not names:
        return text
    word = "|".join(re.escape(name) for name in sorted(names, key=len, reverse=True))
    before = r"(?<![\w'·\-*+∣≤%])" if after_dot else r"(?<![\w'·\-*+∣≤%.])"
    return re.sub(before + "(" + word + r")(?![\w'\-])", lambda found: names[found[1]], text)


def main():
    definitions, fields, lemmas = table(DEFINITIONS), table(FIELDS), table(LEMMAS)
    # a lemma whose name holds no dash may be named as a Rust function: only proofs and specs speak of the lemma
    dashed = {name: new for name, new in lemmas.items() if "-" in name}
    antt = glob.glob("crates/*/specs/**/*.antt", recursive=True) + glob.glob("crates/*/proofs/**/*.antt", recursive=True)
    sources = glob.glob("crates/*/src/**/*.rt", recursive=True)
    pages = ["README.md"] + glob.glob("docs/*.md")
    for path in antt + sources + pages:
        with open(path, encoding="utf-8") as file:
            text = file.read()
        if path in antt:
            # all at once, since one name's old spelling may be another's new one
            new = respelled(text, {**definitions, **fields, **lemmas}, False)
            new = respelled(new, {**definitions, **fields}, True)
        elif path in sources:
            new = respelled(text, {**definitions, **fields, **dashed}, False)
            new = respelled(new, {**definitions, **fields}, True)
        else:
            new = respelled(text, definitions, True)
        if new != text:
            with open(path, "w", encoding="utf-8") as file:
                file.write(new)
            print(path)


if __name__ == "__main__":
    main()
