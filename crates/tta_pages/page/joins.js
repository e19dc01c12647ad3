//# places : the script that finds the cycle and the bus of each move that is left
function slotsOf(row){
const [moves,long]=row.text.split(' ['),slots=moves.split(' , ').map((text,bus)=>({address:row.address,bus,text}));
return long?[...slots,{address:row.address,bus:-1,text:'['+long}]:slots;
}
function placeAll(all,block,last){
block.slots=block.rows.flatMap(slotsOf).filter(slot=>slot.text!='...');
const numbered=text=>text.replace(/(^| )(b[0-9]+) ->/,(m,blank,name)=>blank+all.named.get(name).address+' ->');
for(const item of last){
const text=numbered(item.now),long=text.startsWith('long ');
const slot=block.slots.find(s=>!s.item&&(long?s.bus<0:s.text==text));
if(slot){slot.item=item;item.slot=slot;}
}
}
//# joins : the script that joins lines of the program, steps of register code and moves
const bare=text=>text.replace(/ goto .*/,'').replace(/ call .*/,' call').replace(/^call .*/,'call').replace(/ 0 /g,' ');
function lineJoins(all,block){
const own=all.blocks.find(b=>b.proc==block.proc&&b.first<=block.first&&block.last<=b.last&&block.kind=='steps');
const steps=own?own.steps.filter(s=>s.line>=block.first&&s.line<=block.last):[];
const homes=Object.fromEntries(all.variables.filter(v=>v.proc==block.proc).map(v=>[v.name,v.home]));
const homed=steps.map(s=>bare(s.text.split(' ').map(word=>homes[word]||word).join(' ')));
let at=0;
const line=text=>{
const found=homed.indexOf(bare(text),at);
if(found>=0)at=found+1;
const step=steps[found>=0?found:Math.min(at,steps.length-1)];
return block.proc+':'+(step?step.line:block.first||'entry');
};
block.own=steps;
block.code=block.steps.map(text=>({text,line:line(text)}));
at=Math.max(0,steps.length-1);
block.code.push({text:block.exit,line:line(block.exit)});
}
//# moves : the script that finds the moves of each step of register code: up to the one that writes its result
function lastMoveOf(step){
const home=/(^| )([^ ]+) = /.exec(step),op={store:'stw',save:'stf'}[step.split(' ')[0]]||step.split(' ')[0];
if(home&&!home[2].startsWith('slot.'))return text=>targetOf(text)==home[2];
return text=>targetOf(text).endsWith('.t.'+(home?'stf':op));
}
//# all_joins : the script that joins all blocks, and the start of an operation with the reads of its result
function joinAll(all){
let results=0;
for(const block of all.code){
lineJoins(all,block);
const {items,last}=followed(block.lists.length?block.lists:[{what:'selected',items:[]}]),shown=items.filter(item=>item.text);
let from=0;
for(const step of block.code.slice(0,-1)){
const end=shown.findIndex((item,k)=>k>=from&&lastMoveOf(step.text)(item.text));
for(;from<=end;from++)shown[from].line=step.line;
}
for(;from<shown.length;from++)shown[from].line=block.code[block.code.length-1].line;
block.items=items;
items.forEach(item=>item.line=item.line||(item.near?item.near.line:block.code[0].line));
placeAll(all,block,last);
const open={};
for(const item of last){
const read=/(^| )([^ ]+)[.]r ->/.exec(item.now),start=/-> ([^ ]+)[.]t[.]/.exec(item.now);
if(read&&open[read[2]])item.result=open[read[2]];
if(start){item.starts=++results;open[start[1]]=results;}
}
}
return all;
}
